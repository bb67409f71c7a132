"""A stream whose every macroblock of every later frame is split into sixteen blocks, each with a vector of its own."""
import pathlib, random, re, struct

TABLES = pathlib.Path(__file__).resolve().parent.parent / 'crates/vp_tables/src'


def table(file, name):
    """The numbers of a table of vp_tables, one after another."""
    text = (TABLES / file).read_text()
    text = text[text.index(f' {name}:'):]
    body = text[text.index('= ['):text.index(';\n', text.index('= ['))]
    return [int(it) for it in re.findall(r'\d+', body)]


class Writer:
    """The bool encoder (RFC 6386, chapter 7)."""

    def __init__(self):
        self.bytes, self.range, self.bottom, self.left = bytearray(), 255, 0, 24

    def bool(self, value, probability=128):
        split = 1 + (((self.range - 1) * probability) >> 8)
        if value:
            self.bottom += split
            self.range -= split
        else:
            self.range = split
        while self.range < 128:
            self.range <<= 1
            if self.bottom & (1 << 31):
                self.carry()
            self.bottom = (self.bottom << 1) & 0xFFFFFFFF
            self.left -= 1
            if self.left == 0:
                self.bytes.append(self.bottom >> 24)
                self.bottom &= 0xFFFFFF
                self.left = 8

    def carry(self):
        at = len(self.bytes) - 1
        while at >= 0 and self.bytes[at] == 255:
            self.bytes[at] = 0
            at -= 1
        self.bytes[at] += 1

    def literal(self, value, bits):
        for bit in reversed(range(bits)):
            self.bool(value >> bit & 1)

    def end(self):
        for _ in range(32):
            self.bool(0)
        return bytes(self.bytes)


PROBABILITIES = table('mode_probabilities.rt', 'VECTOR_PROBABILITIES')
MODES = table('mode_probabilities.rt', 'VECTOR_MODE_PROBABILITIES')
PARTS = table('mode_probabilities.rt', 'PART_PROBABILITIES')
SPLIT = table('mode_probabilities.rt', 'SPLIT_PROBABILITIES')


def header(w):
    """The header of an inter frame that changes nothing but the last picture (chapter 9)."""
    w.bool(0)                       # no segments
    w.bool(0), w.literal(8, 6), w.literal(0, 3), w.bool(0)  # loop filter
    w.literal(0, 2)                 # one partition
    w.literal(20, 7), w.literal(0, 5)  # quantiser
    w.literal(0, 2), w.literal(0, 4), w.literal(0, 2)  # references and copies, and their signs
    w.bool(0), w.bool(1)            # probabilities aren't kept; the last picture is replaced
    for probability in table('coefficients.rt', 'COEFFICIENT_UPDATES'):
        w.bool(0, probability)
    w.bool(1), w.literal(1, 8)      # each macroblock may skip its residue
    w.literal(1, 8), w.literal(255, 8), w.literal(128, 8)  # inter, of the last picture
    w.bool(0), w.bool(0)
    for probability in table('mode_probabilities.rt', 'VECTOR_UPDATES'):
        w.bool(0, probability)


def write_part(w, value, p):
    """A part of a vector, in half of its steps (chapter 17.2)."""
    size = abs(value)
    if size < 8:
        w.bool(0, p[0])
        w.bool(size >> 2, p[2])
        if size >> 2:
            w.bool(size >> 1 & 1, p[6])
            w.bool(size & 1, p[8 if size >> 1 & 1 else 7])
        else:
            w.bool(size >> 1 & 1, p[3])
            w.bool(size & 1, p[5 if size >> 1 & 1 else 4])
    else:
        w.bool(1, p[0])
        for bit in (0, 1, 2, 9, 8, 7, 6, 5, 4):
            w.bool(size >> bit & 1, p[9 + bit])
        if size > 15:
            w.bool(size >> 3 & 1, p[9 + 3])
    if size:
        w.bool(value < 0, p[1])


def context(left, above):
    """Which probabilities a block's mode has, by the vectors left and above (chapter 16.4)."""
    if left == above:
        return 4 if above == (0, 0) else 3
    return 2 if above == (0, 0) else 1 if left == (0, 0) else 0


def best_of(neighbours):
    """The best vector of the neighbours above, left and above left, and how often each candidate counts (chapter 16.3),
    where all refer to one picture; a neighbour outside the picture is None."""
    found, counts, at = [(0, 0)], [0, 0, 0, 0], 0
    for vector, weight in zip(neighbours, (2, 2, 1)):
        if vector is None:
            continue
        if vector == (0, 0):
            counts[0] += weight
        elif at and vector == found[at]:
            counts[at] += weight
        else:
            found.append(vector)
            at += 1
            counts[at] += weight
    found += [(0, 0)] * (4 - len(found))
    if counts[3] and found[at] == found[1]:
        counts[1] += 1
    above, left, corner = (it is not None for it in neighbours)
    counts[3] = 2 * above + 2 * left + corner
    if counts[2] > counts[1]:
        counts[1:3], found[1:3] = counts[2:0:-1], found[2:0:-1]
    if counts[1] >= counts[0]:
        found[0] = found[1]
    return found[0], counts


def frame(columns, rows, chance):
    """The packet of an inter frame: each macroblock is split, each block has a new vector of up to seven pixels."""
    w = Writer()
    header(w)
    vectors = {}
    for row in range(rows):
        for column in range(columns):
            macroblock(w, vectors, row, column, chance)
    first = w.end()
    return struct.pack('<I', (1 | 1 << 4 | len(first) << 5))[:3] + first + bytes(8)


def macroblock(w, vectors, row, column, chance):
    last = lambda r, c: vectors.get((r * 4 + 3, c * 4 + 3))
    neighbours = [last(row - 1, column), last(row, column - 1), last(row - 1, column - 1)]
    best, counts = best_of(neighbours)
    w.bool(1, 1), w.bool(1, 1), w.bool(0, 255)   # no residue, inter, of the last picture
    for place in range(4):
        w.bool(1, MODES[counts[place] * 4 + place])
    w.bool(0, SPLIT[0])                          # into sixteen
    for block in range(16):
        r, c = row * 4 + block // 4, column * 4 + block % 4
        left, above = vectors.get((r, c - 1), (0, 0)), vectors.get((r - 1, c), (0, 0))
        p = PARTS[context(left, above) * 3:][:3]
        w.bool(1, p[0]), w.bool(1, p[1]), w.bool(1, p[2])
        # odd numbers of quarters, so that both ways are between pixels
        vector = tuple(2 * chance.randrange(-14, 14) + 1 for _ in range(2))
        for way in range(2):
            write_part(w, vector[way] - best[way], PROBABILITIES[way * 19:][:19])
        vectors[r, c] = vector


def split_packets(width, height, count):
    """So many packets, to stand behind a key packet without segments."""
    chance = random.Random(1)
    return [frame((width + 15) // 16, (height + 15) // 16, chance) for _ in range(count)]
