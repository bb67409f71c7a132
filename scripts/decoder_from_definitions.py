#!/usr/bin/env python3
"""A VP8 decoder written from the definitions of crates/*/specs alone: in their order, with their names. Not proved.

    decoder_from_definitions.py [--y4m] FILE.ivf..
    decoder_from_definitions.py --sums LIST [FOLDER]

Prints for each file the MD5 sum of the output (I420, or YUV4MPEG2), the name, the report, and the fault of the file.
With --sums it decodes NAME.ivf of FOLDER, or of the list's folder, for each line NAME MD5 [PACKETS SHOWN HIDDEN ..] of
LIST, and prints what differs, the seconds of each file, and 'N passed, M failed'. So for the streams of the gate:

    scripts/decoder_from_definitions.py --sums crates/vp_transcripts/stdout crates/vp_transcripts/data

It is to be laid beside the definitions that the contract of `decode_all` rests on, which `scripts/claims.py --door
decode_all` lists in the same order. What differs: a `Reader` changes the state s, its last argument, and returns the
value alone; `when b r a` is `r if b else a`. A grid, plane or picture that is replaced is changed in place. A block of
pixels is a list of rows where the definition is a function of row and column. `Err` raises an exception. What a
definition computes again and again is computed once. A name that is taken ends in `_`. The numbers are those of
docs/TABLES.md. It needs Python 3.9, and nothing else.
"""
import functools, hashlib, pathlib, re, sys, time, types

sys.dont_write_bytecode = True
import compare_tables

R = types.SimpleNamespace  # a record
PAGE = pathlib.Path(__file__).resolve().parent.parent / "docs/TABLES.md"
T = R(**compare_tables.wanted(re.sub(r"\n  (?=\S)", " ", PAGE.read_text())))  # the tables of vp_tables
def but(record, **fields): return R(**{**vars(record), **fields})  # record r { f = a }

# ---- vp_base/specs/Raster.antt
def pixel_index(p, x, y): return y * p.width + x
def pixel(p, x, y): return p.pixels[y * p.width + x]
def blank(w, h, fill): return R(width=w, height=h, pixels=bytearray([fill]) * (h * w))
# ---- vp_base/specs/Block.antt
def numbers(w, h, p): return b"".join(p.pixels[y * p.width : y * p.width + w] for y in range(h))
def with_block(p, x0, y0, rows):
    for i, row in zip(range(pixel_index(p, x0, y0), len(p.pixels), p.width), rows):
        p.pixels[i : i + len(row)] = bytes(row)
# ---- vp_base/specs/Grid.antt. A Place is a pair (column, row).
def entry(g, p): return g.entries[p[1] * g.columns + p[0]] if p[0] < g.columns and p[1] < g.rows else None
def at(outside, g, p): return outside if entry(g, p) is None else entry(g, p)
def look(outside, g, p): return outside if p is None else at(outside, g, p)
def with_entry(g, p, a): g.entries[p[1] * g.columns + p[0]] = a
def mapped(f, g): return R(columns=g.columns, rows=g.rows, entries=[f(a) for a in g.entries])
def all_(columns, rows, a): return R(columns=columns, rows=rows, entries=[a] * (rows * columns))
# ---- vp_base/specs/Image.antt
def macroblocks(side): return (side + 15) // 16
def blank_image(width, height, fill):
    luma, u, v = (blank(n * macroblocks(width), n * macroblocks(height), fill) for n in (16, 8, 8))
    return R(width=width, height=height, luma=luma, u=u, v=v)
def plane_of(p, k): return (p.luma, p.u, p.v)[k]
def i420(p):
    w, h = (p.width + 1) // 2, (p.height + 1) // 2
    return numbers(p.width, p.height, p.luma) + numbers(w, h, p.u) + numbers(w, h, p.v)
# ---- vp_base/specs/Near.antt. Here k is (None, k), There q k is (q, k), Outside is None.
def block_place(side, p, k): return p[0] * side + k % side, p[1] * side + k // side
def macroblock_place(side, b): return b[0] // side, b[1] // side
def block_number(side, b): return b[1] % side * side + b[0] % side
def seen_from(side, here, b):
    if b is None: return None
    q = macroblock_place(side, b)
    return None if q == here else q, block_number(side, b)
@functools.lru_cache(maxsize=None)
def seen(side, next_, p, k): return seen_from(side, p, next_(block_place(side, p, k)))  # next_ is above or left
def value(of, outside, g, found, near):
    if near is None: return outside
    return found[near[1]] if near[0] is None else of(entry(g, near[0]), near[1])
# ---- vp_base/specs/Over.antt. The places of a loop over rows and columns.
def over(columns, rows): return [(column, row) for row in range(rows) for column in range(columns)]
# ---- vp_base/specs/Place.antt
def above(p): return None if p[1] == 0 else (p[0], p[1] - 1)
def left(p): return None if p[0] == 0 else (p[0] - 1, p[1])
def corner(p): return None if above(p) is None else left(above(p))

# ---- vp_bool/specs/Bools.antt. The value has only those bytes that were needed so far; after the last one come zeros.
SHIFTS = [max(0, 8 - n.bit_length()) for n in range(256)]  # how often a range is doubled until it is 128 or more
def initial_state(bytes_):
    return loaded(R(value=0, range=255, scale=-8, bytes=bytes_[:1] if bytes_[:1] == b"\xff" else bytes_, at=0))
def loaded(s):
    s.value = s.value << 32 | int.from_bytes(s.bytes[s.at : s.at + 4].ljust(4, b"\0"), "big")
    s.scale, s.at = s.scale + 32, s.at + 4
    return s
def read(p, s):
    split = 1 + ((s.range - 1) * p >> 8)
    bool_ = s.value >= split << s.scale
    if bool_:
        s.value -= split << s.scale
        split = s.range - split
    s.range = split << SHIFTS[split]
    s.scale -= SHIFTS[split]
    if s.scale < 0: loaded(s)
    return bool_
def literal(n, s): return functools.reduce(lambda high, _: 2 * high + read(128, s), range(n), 0)
# ---- vp_bool/specs/Reader.antt
def each(n, row, xs, s): return [row(i, xs[i], s) for i in range(n)]

# ---- vp_tree/specs/Tree.antt. An entry is ("Leaf", x) or ("Pair", j).
def walk_from(tree, probabilities, i, s):
    while True:
        kind, i = tree[i + read(probabilities[i // 2], s)]
        if kind == "Leaf": return i

# ---- vp_tables/specs/Modes.antt
def is_by_subblocks(luma): return luma == "B"
def is_split(mode): return mode == "Split"
# ---- vp_tables/specs/Tables.antt
SUB_NUMBER = {mode: k for k, mode in enumerate("Dc Tm Ve He Ld Rd Vr Vl Hd Hu".split())}
LEAST_MAGNITUDE = dict(zip("Zero One Two Three Four".split(), range(5)))
LEAST_MAGNITUDE.update((f"Category{k + 1}", base) for k, base in enumerate(T.CATEGORY_BASES))
EXTRA_PROBABILITIES = {f"Category{k}": getattr(T, f"CATEGORY_{k}") for k in range(1, 7)}
def key_sub_probabilities(above_, left_): return T.KEY_SUB_PROBABILITIES[SUB_NUMBER[above_]][SUB_NUMBER[left_]]

# ---- vp_head/specs/Rows.antt
def flag(s): return read(128, s)
def magnitude(n, s): return literal(n, s) * (-1 if flag(s) else 1)
def flagged(p, m, otherwise, s): return m(s) if read(p, s) else otherwise
def optional_signed(n, otherwise, s): return flagged(128, lambda s: magnitude(n, s), otherwise, s)
def renewed(p, otherwise, s): return flagged(p, lambda s: literal(8, s), otherwise, s)
def list_of(n, row, s): return [row(i, s) for i in range(n)]
def four_signed(n, old, s): return list_of(4, lambda i, s: optional_signed(n, old[i], s), s)
# ---- vp_head/specs/Probabilities.antt
def token_probability_updates(old, s):
    update = lambda type_, band, context, entry, x, s: renewed(T.COEFFICIENT_UPDATES[type_][band][context][entry], x, s)
    return each(4, lambda t, x, s: each(8, lambda b, x, s: each(3, lambda c, x, s: each(
        11, lambda e, x, s: update(t, b, c, e, x, s), x, s), x, s), x, s), old, s)
def luma_mode_probabilities(old, s): return flagged(128, lambda s: list_of(4, lambda i, s: literal(8, s), s), old, s)
def chroma(old, s): return flagged(128, lambda s: list_of(3, lambda i, s: literal(8, s), s), old, s)
def seven_bits(s): return 2 * literal(7, s) or 1
def vector_renewed(p, old, s): return flagged(p, seven_bits, old, s)
def vectors(old, s):
    return each(2, lambda i, x, s: each(19, lambda e, x, s: vector_renewed(T.VECTOR_UPDATES[i][e], x, s), x, s), old, s)
# ---- vp_head/specs/Saved.antt
FOUR_ZEROS = [0, 0, 0, 0]
DEFAULTS = R(
    probabilities=R(coefficients=T.COEFFICIENT_PROBABILITIES, vectors=T.VECTOR_PROBABILITIES,
                    luma=T.LUMA_PROBABILITIES, chroma=T.CHROMA_PROBABILITIES),
    segments=R(absolute=False, quantisers=FOUR_ZEROS, levels=FOUR_ZEROS),
    deltas=R(reference=FOUR_ZEROS, mode=FOUR_ZEROS), biases=R(golden=False, alt=False))
def kept_after(kept, h):
    probabilities = h.probabilities if h.refresh_entropy else kept.probabilities
    return R(probabilities=probabilities, segments=h.segmentation.values, deltas=h.deltas, biases=h.biases)
# ---- vp_head/specs/Header.antt. Python too evaluates the fields of a record in the order in which they are written.
def segment_values(s):
    return R(absolute=flag(s), quantisers=list_of(4, lambda i, s: optional_signed(7, 0, s), s),
             levels=list_of(4, lambda i, s: optional_signed(6, 0, s), s))
def tree_probabilities(s): return list_of(3, lambda i, s: renewed(128, 255, s), s)
def segmentation(kept, s):
    enabled = flag(s)
    update_map, update_data = (flag(s), flag(s)) if enabled else (False, False)
    return R(enabled=enabled, update_map=update_map, values=segment_values(s) if update_data else kept,
             tree_probabilities=tree_probabilities(s) if update_map else [255, 255, 255])
def filter_(s): return R(simple=flag(s), level=literal(6, s), sharpness=literal(3, s))
def all_deltas(kept, s): return R(reference=four_signed(6, kept.reference, s), mode=four_signed(6, kept.mode, s))
def level_deltas(kept, s):
    enabled = flag(s)
    update = flag(s) if enabled else False
    return enabled, all_deltas(kept, s) if update else kept
def quantiser_indices(s):
    deltas = "y_dc", "y2_dc", "y2_ac", "uv_dc", "uv_ac"
    return R(y_ac=literal(7, s), **{delta: optional_signed(4, 0, s) for delta in deltas})
def copy(s): return ("Nothing", "Last", "Other", "Unused")[literal(2, s)]
def refreshes(key, kept, s):
    h = R()
    h.refresh_golden, h.refresh_alt = (True, True) if key else (flag(s), flag(s))
    h.copy_to_golden = "Nothing" if h.refresh_golden else copy(s)
    h.copy_to_alt = "Nothing" if h.refresh_alt else copy(s)
    biases = R(golden=kept.golden if key else flag(s), alt=kept.alt if key else flag(s))
    entropy = flag(s)
    h.refresh_last = True if key else flag(s)
    return h, biases, entropy
def skip(s): return flagged(128, lambda s: literal(8, s), None, s)
def reference_probabilities(s): return R(intra=literal(8, s), last=literal(8, s), golden=literal(8, s))
def frame(key, kept, s):
    h, old = R(key=key), kept.probabilities
    h.color_space, h.clamping_type = (flag(s), flag(s)) if key else (False, False)
    h.segmentation = segmentation(kept.segments, s)
    h.filter = filter_(s)
    h.deltas_enabled, h.deltas = level_deltas(kept.deltas, s)
    h.log2_partitions = literal(2, s)
    h.quantiser = quantiser_indices(s)
    h.updates, h.biases, h.refresh_entropy = refreshes(key, kept.biases, s)
    h.probabilities = R(coefficients=token_probability_updates(old.coefficients, s))
    h.skip = skip(s)
    h.references = R(intra=0, last=0, golden=0) if key else reference_probabilities(s)
    h.probabilities.luma = old.luma if key else luma_mode_probabilities(old.luma, s)
    h.probabilities.chroma = old.chroma if key else chroma(old.chroma, s)
    h.probabilities.vectors = old.vectors if key else vectors(old.vectors, s)
    return h
def header(saved, tag, s):
    kept = DEFAULTS if tag.key else saved
    h = frame(tag.key is not None, kept, s)
    return h, kept_after(kept, h)
# ---- vp_head/specs/Reference.antt
def is_intra(reference): return reference == "Intra"
# ---- vp_head/specs/Tag.antt
class PacketFault(Exception): pass
def bit_field(from_, count, n): return n >> from_ & (1 << count) - 1
def word_at(i, packet): return packet[i] + 256 * packet[i + 1]
def key_of(limits, packet):
    if len(packet) < 10: raise PacketFault("Truncated")
    if packet[3:6] != b"\x9d\x01\x2a": raise PacketFault("StartCode")
    width, height = word_at(6, packet), word_at(8, packet)
    dim = R(w=bit_field(0, 14, width), h=bit_field(0, 14, height))
    if dim.w == 0 or dim.h == 0: raise PacketFault("Size")
    if limits.pixels < dim.w * dim.h: raise PacketFault("TooLarge")
    return R(dim=dim, horizontal_scale=bit_field(14, 2, width), vertical_scale=bit_field(14, 2, height))
def tag_of(limits, packet):
    if len(packet) < 3: raise PacketFault("Truncated")
    word = word_at(0, packet) + 65536 * packet[2]
    if bit_field(1, 3, word) > 3: raise PacketFault("Version")
    key = key_of(limits, packet) if bit_field(0, 1, word) == 0 else None
    return R(version=bit_field(1, 3, word), show=bit_field(4, 1, word), first_partition=bit_field(5, 19, word), key=key)

# ---- vp_modes/specs/Entry.antt
def unread(segment, skip_, reference):
    return R(segment=segment, skip=skip_, reference=reference, luma="Dc", subs=["Dc"] * 16, chroma="Dc")
def plain_of(segment): return unread(segment, False, "Intra")
# ---- vp_modes/specs/Map.antt
def segments_of(g): return mapped(lambda m: m.segment, g)
def of_segments(g): return mapped(plain_of, g)
def implied_submode(luma): return {"V": "Ve", "H": "He", "Tm": "Tm"}.get(luma, "Dc")
def sub_of(m, k): return m.subs[k] if is_by_subblocks(m.luma) else implied_submode(m.luma)
def context_above(g, p, found, k): return value(sub_of, "Dc", g, found, seen(4, above, p, k))
def context_left(g, p, found, k): return value(sub_of, "Dc", g, found, seen(4, left, p, k))
# ---- vp_modes/specs/Modes.antt
def segment_of(h, kept, s):
    if h.segmentation.update_map: return int(walk_from(T.SEGMENT_TREE, h.segmentation.tree_probabilities, 0, s))
    return 0 if h.key else kept
def skip_by(p, s): return False if p is None else read(p, s)
def inter_reference(p, s): return ("Alt" if read(p.golden, s) else "Golden") if read(p.last, s) else "Last"
def reference_of(h, s):
    return inter_reference(h.references, s) if not h.key and read(h.references.intra, s) else "Intra"
def luma_mode(h, s):
    tree, probabilities = (T.KEY_LUMA_TREE, T.KEY_LUMA_PROBABILITIES) if h.key else (T.LUMA_TREE, h.probabilities.luma)
    return walk_from(tree, probabilities, 0, s)
def chroma_mode(h, s):
    return walk_from(T.CHROMA_TREE, T.KEY_CHROMA_PROBABILITIES if h.key else h.probabilities.chroma, 0, s)
def sub_probabilities(h, g, p, found, k):
    if not h.key: return T.SUB_PROBABILITIES
    return key_sub_probabilities(context_above(g, p, found, k), context_left(g, p, found, k))
def sub_modes(h, g, p, s):
    found = ["Dc"] * 16
    for k in range(16): found[k] = walk_from(T.SUB_TREE, sub_probabilities(h, g, p, found, k), 0, s)
    return found
def intra_modes(h, g, p, m, s):
    luma = luma_mode(h, s)
    return but(m, luma=luma, subs=sub_modes(h, g, p, s) if is_by_subblocks(luma) else m.subs, chroma=chroma_mode(h, s))
def modes_at(h, g, p, s):
    segment = segment_of(h, entry(g, p).segment, s)
    skip_ = skip_by(h.skip, s)
    m = unread(segment, skip_, reference_of(h, s))
    return intra_modes(h, g, p, m, s) if is_intra(m.reference) else m

# ---- vp_motion/specs/Vector.antt. A vector is a pair (row, column).
ZERO_VECTOR = 0, 0
# ---- vp_motion/specs/Map.antt
INTRA = R(reference="Intra", mode="Zero", vectors=[ZERO_VECTOR] * 16)
def own(e): return e.vectors[15]
def block_vector(e, b): return ZERO_VECTOR if is_intra(e.reference) else e.vectors[b]
def above_block(g, p, found, b): return value(block_vector, ZERO_VECTOR, g, found, seen(4, above, p, b))
def left_block(g, p, found, b): return value(block_vector, ZERO_VECTOR, g, found, seen(4, left, p, b))
# ---- vp_motion/specs/Near.antt. A weighted vector is a pair (vector, weight).
def bias_of(reference, b): return {"Golden": b.golden, "Alt": b.alt}.get(reference, False)
def bias_corrected(r, b, e): return tuple(n if bias_of(e.reference, b) == bias_of(r, b) else -n for n in own(e))
def weighted_neighbour(r, b, weight, e): return [] if is_intra(e.reference) else [(bias_corrected(r, b, e), weight)]
WEIGHTS = (above, 2), (left, 2), (corner, 1)
def neighbours(g, p, r, b):
    return [w for next_, n in WEIGHTS for w in weighted_neighbour(r, b, n, look(INTRA, g, next_(p)))]
def weight_of(v, ws): return sum(weight for u, weight in ws if u == v)
def without(v, ws): return [w for w in ws if w[0] != v]
def first_vector(ws): return (ws[0][0], weight_of(ws[0][0], ws)) if ws else (ZERO_VECTOR, 0)
def splits(e): return not is_intra(e.reference) and is_split(e.mode)
def split_count(g, p): return sum(weight * splits(look(INTRA, g, next_(p))) for next_, weight in WEIGHTS)
def clamped(low, high, z): return low if z < low else high if high < z else z
def clamped_vector(g, p, v):
    return (clamped(-64 * (p[1] + 1), 64 * (g.rows - p[1]), v[0]),
            clamped(-64 * (p[0] + 1), 64 * (g.columns - p[0]), v[1]))
def from_two(clamp, zeros, splits_, nearest_, near):
    best = nearest_[0] if zeros <= nearest_[1] else ZERO_VECTOR
    counts = [zeros, nearest_[1], near[1], splits_]
    return R(counts=counts, best=clamp(best), nearest=clamp(nearest_[0]), near=clamp(near[0]))
def candidates(g, p, r, b):
    ws = neighbours(g, p, r, b)
    moving = without(ZERO_VECTOR, ws)
    first_ = first_vector(moving)
    second = first_vector(without(first_[0], moving))
    by = lambda u, v: from_two(lambda w: clamped_vector(g, p, w), weight_of(ZERO_VECTOR, ws), split_count(g, p), u, v)
    return by(second, first_) if first_[1] < second[1] else by(first_, second)
# ---- vp_motion/specs/Motion.antt
def with_bit(probabilities, i, n, s): return n + 2 ** i if read(probabilities[9 + i], s) else n
def long_size(probabilities, s):
    n = functools.reduce(lambda n, i: with_bit(probabilities, i, n, s), (0, 1, 2, 9, 8, 7, 6, 5, 4), 0)
    return with_bit(probabilities, 3, n, s) if n > 15 else n + 8
def component_magnitude(probabilities, s):
    if read(probabilities[0], s): return long_size(probabilities, s)
    return int(walk_from(T.SHORT_VECTOR_TREE, probabilities[2:9], 0, s))
def component(probabilities, s):
    n = component_magnitude(probabilities, s)
    return -n if n != 0 and read(probabilities[1], s) else n
def vector(probabilities, s): return component(probabilities[0], s), component(probabilities[1], s)
def new_vector(probabilities, best, s): return tuple(map(sum, zip(best, vector(probabilities, s))))
PARTS = {"TopBottom": 2, "LeftRight": 2, "Quarters": 4, "Sixteenths": 16}
def part_of(kind, b):
    return {"TopBottom": b // 8, "LeftRight": b % 4 // 2, "Quarters": b // 8 * 2 + b % 4 // 2, "Sixteenths": b}[kind]
def first_block(kind, k): return next(b for b in range(16) if part_of(kind, b) == k)
def with_part(kind, k, v, found): return [v if part_of(kind, b) == k else found[b] for b in range(16)]
def split_context(l, a):
    if l == a: return 4 if l == ZERO_VECTOR else 3
    return 2 if a == ZERO_VECTOR else 1 if l == ZERO_VECTOR else 0
def part_vector(probabilities, best, l, a, s):
    mode = walk_from(T.PART_TREE, T.PART_PROBABILITIES[split_context(l, a)], 0, s)
    return new_vector(probabilities, best, s) if mode == "New" else {"Left": l, "Above": a, "Zero": ZERO_VECTOR}[mode]
def part_row(probabilities, g, p, best, kind, k, found, s):
    l, a = left_block(g, p, found, first_block(kind, k)), above_block(g, p, found, first_block(kind, k))
    return with_part(kind, k, part_vector(probabilities, best, l, a, s), found)
def split_vectors(probabilities, g, p, best, s):
    kind, found = walk_from(T.SPLIT_TREE, T.SPLIT_PROBABILITIES, 0, s), [ZERO_VECTOR] * 16
    for k in range(PARTS[kind]): found = part_row(probabilities, g, p, best, kind, k, found, s)
    return found
def mode_probabilities(counts): return [T.VECTOR_MODE_PROBABILITIES[counts[i]][i] for i in range(4)]
def vector_mode(counts, s): return walk_from(T.VECTOR_MODE_TREE, mode_probabilities(counts), 0, s)
def vectors_by(probabilities, g, p, c, mode, s):
    if is_split(mode): return split_vectors(probabilities, g, p, c.best, s)
    if mode == "New": return [new_vector(probabilities, c.best, s)] * 16
    return [{"Zero": ZERO_VECTOR, "Nearest": c.nearest, "Near": c.near}[mode]] * 16
def motion_at(h, g, p, reference, s):
    c = candidates(g, p, reference, h.biases)
    mode = vector_mode(c.counts, s)
    return R(mode=mode, vectors=vectors_by(h.probabilities.vectors, g, p, c, mode, s))

# ---- vp_tokens/specs/Block.antt
NO_TOKENS = R(levels=[0] * 16, end=0)
def has_token(b): return b.end > 0
# ---- vp_tokens/specs/Levels.antt
def bands_of(probabilities, kind): return probabilities[("LumaAfterY2", "Y2", "Chroma", "Luma").index(kind)]
def first_of(kind): return 1 if kind == "LumaAfterY2" else 0
def bits(high, ps, s): return functools.reduce(lambda high, p: 2 * high + read(p, s), ps, high)
def level_magnitude(token_, s): return LEAST_MAGNITUDE[token_] + bits(0, EXTRA_PROBABILITIES.get(token_, []), s)
def signed_level(n, s): return -n if n != 0 and read(128, s) else n
def token(bands, i, context_, from_, s): return walk_from(T.TOKEN_TREE, bands[T.BANDS[i]][context_], from_, s)
def levels(bands, i, context_, from_, s):
    found = []
    for position in range(i, 16):
        t = token(bands, position, context_, from_, s)
        if t == "EndOfBlock": break
        n = level_magnitude(t, s)
        found.append(signed_level(n, s))
        context_, from_ = min(n, 2), 2 if n == 0 else 0
    return found
def block_with(first_, xs):
    if not xs: return NO_TOKENS
    return R(levels=[0] * first_ + xs + [0] * (16 - first_ - len(xs)), end=first_ + len(xs))
def coefficient_block(probabilities, kind, context_, s):
    return block_with(first_of(kind), levels(bands_of(probabilities, kind), first_of(kind), context_, 0, s))
# ---- vp_tokens/specs/Blocks.antt. `Tokens` and `Blocks` are one record.
NO_BLOCKS_READ = R(has_y2=False, had=[False] * 25)
PLANES = R(first=1, side=4), R(first=17, side=2), R(first=21, side=2)  # Y, U, V
def any_token(t): return True in t.had
def block_plane(k): return PLANES[0 if k < 17 else 1 if k < 21 else 2]
def next_had(plane, next_, g, p, found, k):
    near = seen(plane.side, next_, p, k - plane.first)
    return near is not None and (found if near[0] is None else entry(g, near[0]).had)[plane.first + near[1]]
def nearest_y2(g, places): return next((entry(g, q).had[0] for q in places if entry(g, q).has_y2), False)
def y2_above(g, p): return nearest_y2(g, ((p[0], row) for row in reversed(range(p[1]))))
def y2_left(g, p): return nearest_y2(g, ((column, p[1]) for column in reversed(range(p[0]))))
def token_above(g, p, found, k): return next_had(block_plane(k), above, g, p, found, k) if k else y2_above(g, p)
def token_left(g, p, found, k): return next_had(block_plane(k), left, g, p, found, k) if k else y2_left(g, p)
def context(g, p, found, k): return token_above(g, p, found, k) + token_left(g, p, found, k)
def kind_of(has_y2_, k): return "Y2" if k == 0 else "Chroma" if k > 16 else "LumaAfterY2" if has_y2_ else "Luma"
def macroblock(probabilities, g, p, has_y2_, skipped, s):
    t = R(blocks=[NO_TOKENS] * 25, has_y2=has_y2_, had=[False] * 25)
    for k in [] if skipped else range(0 if has_y2_ else 1, 25):
        t.blocks[k] = coefficient_block(probabilities, kind_of(has_y2_, k), context(g, p, t.had, k), s)
        t.had[k] = has_token(t.blocks[k])
    return t
# ---- vp_tokens/specs/Partitions.antt
def partition_size(b, i): return int.from_bytes(b[3 * i : 3 * i + 3], "little")
def partition_start(b, n, i): return 3 * (n - 1) + sum(partition_size(b, k) for k in range(i))
def end(b, n, i): return partition_start(b, n, i + 1) if i + 1 < n else len(b)
def partition(b, n, i): return b[partition_start(b, n, i) : end(b, n, i)]
def cut_of(b, n):
    if len(b) < 3 * (n - 1): raise PacketFault("PartitionTable")
    for i in range(n):
        if len(b) < end(b, n, i): raise PacketFault("Partition", i)
    return [partition(b, n, i) for i in range(n)]

# ---- vp_quant/specs/Quant.antt
def clamped_index(z): return max(0, min(z, 127))
def index_of(h, segment):
    frame_, own_ = h.quantiser.y_ac, h.segmentation.values.quantisers[segment]
    if not h.segmentation.enabled: return clamped_index(frame_)
    return clamped_index(own_ if h.segmentation.values.absolute else frame_ + own_)
def factors(index, deltas):
    dc_factor, ac_factor = (lambda delta, t=t: t[clamped_index(index + delta)] for t in (T.DC_FACTORS, T.AC_FACTORS))
    return R(y_dc=dc_factor(deltas.y_dc), y2_dc=2 * dc_factor(deltas.y2_dc), uv_dc=min(132, dc_factor(deltas.uv_dc)),
             y_ac=ac_factor(0), y2_ac=max(8, ac_factor(deltas.y2_ac) * 155 // 100), uv_ac=ac_factor(deltas.uv_ac))
POSITION_AT = [T.ZIGZAG.index(place) for place in range(16)]
def dequantised(levels_, dc, ac): return [levels_[i] * (dc if i == 0 else ac) for i in POSITION_AT]

# ---- vp_transform/specs/Transform.antt. `//` and `>>` round down, as floor_div.
HADAMARD = [1, 1, 1, 1,  1, 1, -1, -1,  1, -1, -1, 1,  1, -1, 1, -1]
def product(m, n): return [sum(m[4 * r + k] * n[4 * k + c] for k in range(4)) for r in range(4) for c in range(4)]
def iwht(block): return [z + 3 >> 3 for z in product(product(HADAMARD, block), HADAMARD)]
def turned(i0, i1, i2, i3):
    a, b = i0 + i2, i0 - i2
    c = (i1 * 35468 >> 16) - (i3 + (i3 * 20091 >> 16))
    d = (i1 + (i1 * 20091 >> 16)) + (i3 * 35468 >> 16)
    return a + d, b + c, b - c, a - d
def idct(block):
    vertical = [turned(*block[c::4]) for c in range(4)]  # its columns
    return [z + 4 >> 3 for row in zip(*vertical) for z in turned(*row)]

# ---- vp_intra/specs/Edges.antt. Plurals are lists: of above_pixel, of left_pixel.
def corner_pixel(p, x, y): return 127 if y == 0 else 129 if x == 0 else pixel(p, x - 1, y - 1)
def above_pixels(p, x, y, n): return [127 if y == 0 else pixel(p, x + c, y - 1) for c in range(n)]
def left_pixels(p, x, y, n): return [129 if x == 0 else pixel(p, x - 1, y + r) for r in range(n)]
def edge(p, x, y, n): return ([] if y == 0 else above_pixels(p, x, y, n)) + ([] if x == 0 else left_pixels(p, x, y, n))
def rounded_mean(vs): return (sum(vs) + len(vs) // 2) // len(vs) if vs else 128
def clamped_pixel(l, a, p): return clamp_to_pixel(l + a - p)
def true_motion(p, x, y, n):
    aboves, at_corner = above_pixels(p, x, y, n), corner_pixel(p, x, y)
    return [[clamped_pixel(l, a, at_corner) for a in aboves] for l in left_pixels(p, x, y, n)]
# ---- vp_intra/specs/Sub.antt
def above_right_row(x, y): return y - y % 16 if x % 16 == 12 else y
def above_right_pixel(p, x, y, i):
    row = above_right_row(x, y)
    return 127 if row == 0 else pixel(p, min(x + 4 + i, p.width - 1), row - 1)
def around(p, x, y):
    return (left_pixels(p, x, y, 4)[::-1] + [corner_pixel(p, x, y)] + above_pixels(p, x, y, 4)
            + [above_right_pixel(p, x, y, i) for i in range(4)])
def avg2(x, y): return (x + y + 1) // 2
def avg3(x, y, z): return (x + 2 * y + z + 2) // 4
def sixteen(f): return [f(r, c) for r in range(4) for c in range(4)]
AVERAGES = {  # the number of pixels (2 or 3) and the index of each mean, in raster order
    "Vr": "2,4 2,5 2,6 2,7  3,4 3,5 3,6 3,7  3,3 2,4 2,5 2,6  3,2 3,4 3,5 3,6",
    "Vl": "2,5 2,6 2,7 2,8  3,6 3,7 3,8 3,9  2,6 2,7 2,8 3,10  3,7 3,8 3,9 3,11",
    "Hd": "2,3 3,4 3,5 3,6  2,2 3,3 2,3 3,4  2,1 3,2 2,2 3,3  2,0 3,1 2,1 3,2"}
AVERAGES = {mode: [[int(n) for n in mean.split(",")] for mean in row.split()] for mode, row in AVERAGES.items()}
def predicted(mode, es):
    avg2_at, avg3_at = lambda k: avg2(es[k], es[k + 1]), lambda k: avg3(es[k - 1], es[k], es[k + 1])
    if mode == "Dc": return [(sum(es[:4]) + sum(es[5:9]) + 4) // 8] * 16
    if mode == "Tm": return sixteen(lambda r, c: clamped_pixel(es[3 - r], es[5 + c], es[4]))
    if mode == "Ve": return sixteen(lambda r, c: avg3_at(5 + c))
    if mode == "He": return sixteen(lambda r, c: avg3(es[1], es[0], es[0]) if r == 3 else avg3_at(3 - r))
    if mode == "Ld": return sixteen(lambda r, c: avg3(es[11], es[12], es[12]) if r + c == 6 else avg3_at(6 + r + c))
    if mode == "Rd": return sixteen(lambda r, c: avg3_at(4 - r + c))
    if mode == "Hu":
        run = [avg2_at(2), avg3_at(2), avg2_at(1), avg3_at(1), avg2_at(0), avg3(es[1], es[0], es[0])] + [es[0]] * 4
        return run[0:4] + run[2:6] + run[4:8] + run[6:10]
    return [avg2_at(k) if n == 2 else avg3_at(k) for n, k in AVERAGES[mode]]
def sub_pixels(mode, p, x, y): return zip(*[iter(predicted(mode, around(p, x, y)))] * 4)  # the rows of sub_pixel
# ---- vp_intra/specs/Whole.antt. The rows of luma_pixel (n is 16) and of chroma_pixel (n is 8).
def whole_pixels_of(mode, p, x, y, n):
    if mode == "Dc": return [[rounded_mean(edge(p, x, y, n))] * n] * n
    if mode == "V": return [above_pixels(p, x, y, n)] * n
    if mode == "H": return [[l] * n for l in left_pixels(p, x, y, n)]
    return true_motion(p, x, y, n)

# ---- vp_inter/specs/Filter.antt
def taps(version, eighths):
    return T.SIX_TAPS[eighths] if version == 0 else [0, 0, 128 - 16 * eighths, 16 * eighths, 0, 0]
def clamp_to_pixel(z): return 0 if z < 0 else 255 if z > 255 else z
def filter_six(weights, *six):  # the filtered pixels of six lists
    t0, t1, t2, t3, t4, t5 = weights
    return [clamp_to_pixel(a * t0 + b * t1 + c * t2 + d * t3 + e * t4 + f * t5 + 64 >> 7)
            for a, b, c, d, e, f in zip(*six)]
# ---- vp_inter/specs/Vectors.antt
def whole_pixels(eighths): return eighths // 8
def fraction(eighths): return eighths % 8
def first_tap(at_, eighths): return at_ + whole_pixels(eighths) - 2
def luma_vector(v): return 2 * v[0], 2 * v[1]
def mean_of_four(sum_): return -((2 - sum_) // 4) if sum_ < 0 else (sum_ + 2) // 4
def chroma_eighths(version, quarters):
    mean = mean_of_four(sum(quarters))
    return whole_pixels(mean) * 8 if version == 3 else mean
def chroma_vector(version, four_): return tuple(chroma_eighths(version, quarters) for quarters in zip(*four_))
# ---- vp_inter/specs/Inter.antt. By a fraction of 0 a pass copies the third of its six pixels.
def nearest(size_, at_): return max(0, min(at_, size_ - 1))
def reference_pixels(p, column, row, n):  # n of reference_pixel, from left to right
    start = nearest(p.height, row) * p.width
    if 0 <= column and column + n <= p.width: return p.pixels[start + column : start + column + n]
    return [p.pixels[start + nearest(p.width, column + k)] for k in range(n)]
def horizontal_pass(version, eighths, row, n):
    if fraction(eighths) == 0: return row[2 : 2 + n]
    return filter_six(taps(version, fraction(eighths)), *(row[k : k + n] for k in range(6)))
def inter_pixels(version, p, x, y, v, n):  # the rows of inter_pixel in a block of n by n
    rows = [reference_pixels(p, first_tap(x, v[1]), first_tap(y, v[0]) + i, n + 5) for i in range(n + 5)]
    rows = [horizontal_pass(version, v[1], row, n) for row in rows]
    if fraction(v[0]) == 0: return rows[2 : 2 + n]
    return [filter_six(taps(version, fraction(v[0])), *rows[r : r + 6]) for r in range(n)]

# ---- vp_recon/specs/Predictor.antt. Intra has modes; Inter has motion, reference and version.
def is_inter(predictor): return hasattr(predictor, "motion")
def predicts_by_subblocks(predictor): return not is_inter(predictor) and is_by_subblocks(predictor.modes.luma)
def has_y2(predictor):
    return not (is_split(predictor.motion.mode) if is_inter(predictor) else predicts_by_subblocks(predictor))
# ---- vp_recon/specs/Prediction.antt
def four_from(vectors_, first_): return [vectors_[first_ + k] for k in (0, 1, 4, 5)]
def chroma_moved(version, e, k): return chroma_vector(version, four_from(e.vectors, 8 * (k // 2) + 2 * (k % 2)))
def moved_pixels(version, reference, x, y, across, vs):  # the rows of moved_pixel; at once if all have one vector
    if len(set(vs)) == 1: return inter_pixels(version, reference, x, y, vs[0], 4 * across)
    found = []
    for i in range(across):
        row = [inter_pixels(version, reference, x + 4 * j, y + 4 * i, vs[across * i + j], 4) for j in range(across)]
        found += [[n for block in row for n in block[r]] for r in range(4)]
    return found
def luma_prediction(predictor, x, y, p):  # but B_PRED
    if not is_inter(predictor): return whole_pixels_of(predictor.modes.luma, p, x, y, 16)
    vs = [luma_vector(v) for v in predictor.motion.vectors]
    return moved_pixels(predictor.version, predictor.reference.luma, x, y, 4, vs)
def chroma_prediction(predictor, k, x, y, p):
    if not is_inter(predictor): return whole_pixels_of(predictor.modes.chroma, p, x, y, 8)
    vs = [chroma_moved(predictor.version, predictor.motion, b) for b in range(4)]
    return moved_pixels(predictor.version, plane_of(predictor.reference, k), x, y, 2, vs)
# ---- vp_recon/specs/Residue.antt. None is a residue of zeros.
def residue(coefficients): return idct(coefficients) if any(coefficients) else None
def luma_residues(y2, t, f):  # luma_residue of subblocks 0 to 15
    if not any_token(t): return [None] * 16
    found = [dequantised(t.blocks[1 + k].levels, f.y_dc, f.y_ac) for k in range(16)]
    luma_dcs = iwht(dequantised(t.blocks[0].levels, f.y2_dc, f.y2_ac)) if y2 else []
    for own_, first_ in zip(found, luma_dcs): own_[0] = first_
    return [residue(own_) for own_ in found]
def chroma_residue(t, f, plane, k): return residue(dequantised(t.blocks[13 + 4 * plane + k].levels, f.uv_dc, f.uv_ac))
# ---- vp_recon/specs/Rebuilt.antt
def summed(predictions, residues): return [clamp_to_pixel(a + b) for a, b in zip(predictions, residues)]
def made(across, predictions, residues):  # the rows of luma_made and chroma_made
    rows = [list(row) for row in predictions]
    for k, found in enumerate(residues):
        c = 4 * (k % across)
        for r in range(4) if found else []:
            row = rows[4 * (k // across) + r]
            row[c : c + 4] = summed(row[c : c + 4], found[4 * r : 4 * r + 4])
    return rows
def sub_step(m, x, y, k, found, p):
    x, y = x + 4 * (k % 4), y + 4 * (k // 4)
    with_block(p, x, y, made(1, sub_pixels(m.predictor.modes.subs[k], p, x, y), [found]))
def luma_rebuilt(m, x, y, p):
    found = luma_residues(has_y2(m.predictor), m.tokens, m.factors)
    if predicts_by_subblocks(m.predictor):
        for k in range(16): sub_step(m, x, y, k, found[k], p)
    else: with_block(p, x, y, made(4, luma_prediction(m.predictor, x, y, p), found))
def chroma_rebuilt(m, k, x, y, p):
    found = [chroma_residue(m.tokens, m.factors, k, b) for b in range(4)]
    with_block(p, x, y, made(2, chroma_prediction(m.predictor, k, x, y, p), found))
def rebuilt(m, place, p):
    luma_rebuilt(m, 16 * place[0], 16 * place[1], p.luma)
    for k in (1, 2): chroma_rebuilt(m, k, 8 * place[0], 8 * place[1], plane_of(p, k))
def all_rebuilt(f, p):
    for place in over(macroblocks(p.width), macroblocks(p.height)): rebuilt(f(place), place, p)
    return p

# ---- vp_loop/specs/LineSteps.antt. A line is the list p3 p2 p1 p0 q0 q1 q2 q3.
def clamp8(z): return -128 if z < -128 else 127 if z > 127 else z
def signed(n): return n - 128
def pixel_from(z): return clamp8(z) + 128
def is_small_step(limit, l): return abs(l[3] - l[4]) * 2 + abs(l[2] - l[5]) // 2 <= limit
def is_smooth(interior, l):
    p3, p2, p1, p0, q0, q1, q2, q3 = l
    return (abs(p3 - p2) <= interior and abs(p2 - p1) <= interior and abs(p1 - p0) <= interior
            and abs(q1 - q0) <= interior and abs(q2 - q1) <= interior and abs(q3 - q2) <= interior)
def is_high(threshold, l): return abs(l[2] - l[3]) > threshold or abs(l[5] - l[4]) > threshold
def filter_value(outer, l): return clamp8((clamp8(l[2] - l[5]) if outer else 0) + 3 * (l[4] - l[3]))
def eighth(a, by): return clamp8(a + by) >> 3
def common_adjusted(outer, l):
    a = filter_value(outer, l)
    return [*l[:3], pixel_from(signed(l[3]) + eighth(a, 3)), pixel_from(signed(l[4]) - eighth(a, 4)), *l[5:]]
def outer_tap_adjustment(high, l): return 0 if high else eighth(filter_value(high, l), 4) + 1 >> 1
def subblock_edge_filtered(high, l):
    a, line = outer_tap_adjustment(high, l), common_adjusted(high, l)
    line[2], line[5] = pixel_from(signed(l[2]) + a), pixel_from(signed(l[5]) - a)
    return line
def macroblock_edge_filtered(high, l):
    if high: return common_adjusted(True, l)
    a = filter_value(True, l)
    w9, w18, w27 = (clamp8(a * k + 63 >> 7) for k in (9, 18, 27))  # weighted_filter_value
    return [pixel_from(signed(n) + w) for n, w in zip(l, (0, w9, w18, w27, -w27, -w18, -w9, 0))]
def stepped(step_, l):
    small = is_small_step(step_.limit, l)
    smooth = small and (step_.kind == "Simple" or is_smooth(step_.interior, l))
    if step_.kind == "Simple": return common_adjusted(True, l) if small else l
    if step_.kind == "Subblock": return subblock_edge_filtered(is_high(step_.hev, l), l) if smooth else l
    return macroblock_edge_filtered(is_high(step_.hev, l), l) if smooth else l
# ---- vp_loop/specs/Edges.antt
def line_step(step_, across, i, p):  # i is the index of p3, and across the distance to p2
    line = p.pixels[i : i + 7 * across + 1 : across]
    if (new := stepped(step_, line)) is not line: p.pixels[i : i + 7 * across + 1 : across] = bytes(new)
def edge_lines(orientation, step_, n, x, y, p):
    across, along = (1, p.width) if orientation == "vertical" else (p.width, 1)
    for j in range(n): line_step(step_, across, pixel_index(p, x, y) + j * along, p)
def edge_limits(level):
    kind = "Simple" if level.interior == 0 else "Normal"
    limits = R(kind=kind, macroblock=level.edge, subblock=level.inner or None, interior=level.interior, hev=level.hev)
    return limits if level.edge != 0 else None
def chroma_limits(limits): return None if limits is None or limits.kind == "Simple" else limits
STEP_KINDS = {"Simple": ("Simple", "Simple"), "Normal": ("Macroblock", "Subblock")}
def macroblock_step(limits):
    return R(kind=STEP_KINDS[limits.kind][0], limit=limits.macroblock, interior=limits.interior, hev=limits.hev)
def subblock_step(limits, limit): return but(macroblock_step(limits), limit=limit, kind=STEP_KINDS[limits.kind][1])
def macroblock_edge(orientation, step_, size_, x, y, p):
    if orientation == "vertical" and x > 0: edge_lines(orientation, step_, size_, x - 4, y, p)
    if orientation == "horizontal" and y > 0: edge_lines(orientation, step_, size_, x, y - 4, p)
def subblock_edges(orientation, step_, size_, x, y, p):
    for i in range(0, size_ - 4, 4):
        edge_lines(orientation, step_, size_, *((x + i, y) if orientation == "vertical" else (x, y + i)), p)
def edges_inside(orientation, limits, size_, x, y, p):
    if limits.subblock is not None: subblock_edges(orientation, subblock_step(limits, limits.subblock), size_, x, y, p)
def block_edges(orientation, size_, limits, x, y, p):
    macroblock_edge(orientation, macroblock_step(limits), size_, x, y, p)
    edges_inside(orientation, limits, size_, x, y, p)
def block_filtered(size_, limits, x, y, p):
    for orientation in ("vertical", "horizontal") if limits else []: block_edges(orientation, size_, limits, x, y, p)
# ---- vp_loop/specs/Levels.antt
def clamped_level(z): return max(0, min(63, z))
def segment_level(h, segment):
    values = h.segmentation.values
    if not h.segmentation.enabled: return h.filter.level
    return clamped_level(values.levels[segment] if values.absolute else h.filter.level + values.levels[segment])
def reference_delta(deltas, reference): return deltas.reference[("Intra", "Last", "Golden", "Alt").index(reference)]
def mode_delta(deltas, mode):
    return 0 if mode == "Whole" else deltas.mode[("Subblocks", "Zero", "Moved", "Split").index(mode)]
def summed_level(h, segment, kind):
    deltas = reference_delta(h.deltas, kind.reference) + mode_delta(h.deltas, kind.prediction)
    return clamped_level(segment_level(h, segment) + (deltas if h.deltas_enabled else 0))
def macroblock_level(h, segment, kind): return 0 if h.filter.level == 0 else summed_level(h, segment, kind)
def interior_limit(sharpness, level):
    return max(1, level if sharpness == 0 else min(9 - sharpness, level // (4 if 4 < sharpness else 2)))
def variance_threshold(key, level): return sum(least <= level for least in ((40, 15) if key else (40, 20, 15)))
def has_inner_edges(kind): return kind.coded or kind.prediction in ("Subblocks", "Split")
def filter_level(h, segment, kind):
    level = macroblock_level(h, segment, kind)
    interior, hev = interior_limit(h.filter.sharpness, level), variance_threshold(h.key, level)
    edge, inner = (level + 2) * 2 + interior, level * 2 + interior if has_inner_edges(kind) else 0
    if level == 0: return R(edge=0, inner=0, interior=0, hev=0)
    return R(edge=edge, inner=inner, interior=0 if h.filter.simple else interior, hev=0 if h.filter.simple else hev)
# ---- vp_loop/specs/Filtered.antt
def macroblock_filtered(level, column, row, p):
    block_filtered(16, edge_limits(level), 16 * column, 16 * row, p.luma)
    for chroma_ in (p.u, p.v): block_filtered(8, chroma_limits(edge_limits(level)), 8 * column, 8 * row, chroma_)
def filtered(level, p):
    for place in over(macroblocks(p.width), macroblocks(p.height)): macroblock_filtered(level(place), *place, p)
    return p

# ---- vp_refs/specs/References.antt
def all_of(p): return R(last=p, golden=p, alt=p, newest=p)
def reference_picture(refs, reference): return {"Last": refs.last, "Golden": refs.golden, "Alt": refs.alt}[reference]
def copied_by(copy_, last, other, own_): return {"Last": last, "Other": other}.get(copy_, own_)
def with_copies(updates, refs):
    alt = copied_by(updates.copy_to_alt, refs.last, refs.golden, refs.alt)
    return but(refs, alt=alt, golden=copied_by(updates.copy_to_golden, refs.last, alt, refs.golden))
def updated(h, p, old):
    refs = with_copies(h.updates, old)
    return R(last=p if h.key or h.updates.refresh_last else refs.last,
             golden=p if h.key or h.updates.refresh_golden else refs.golden,
             alt=p if h.key or h.updates.refresh_alt else refs.alt, newest=p)

# ---- vp_decode/specs/MacroblockMaps.antt
def macroblock_read(h, p, m, s):
    modes = modes_at(h, m.modes, p, s)
    with_entry(m.modes, p, modes)
    if not is_intra(modes.reference):
        with_entry(m.motion, p, but(motion_at(h, m.motion, p, modes.reference, s), reference=modes.reference))
def maps_read(h, m, s):
    for p in over(m.modes.columns, m.modes.rows): macroblock_read(h, p, m, s)
    return m
# ---- vp_decode/specs/Frame.antt. The tokens of all macroblocks are looked up in what is read once.
def predictor_at(f, p):
    modes = entry(f.maps.modes, p)
    if f.references is None or is_intra(modes.reference): return R(modes=modes)
    reference = reference_picture(f.references, modes.reference)
    return R(motion=entry(f.maps.motion, p), reference=reference, version=f.version)
def tokens_read(f, p, g, s):
    coded, skipped = f.header.probabilities.coefficients, entry(f.maps.modes, p).skip
    with_entry(g, p, macroblock(coded, g, p, has_y2(predictor_at(f, p)), skipped, s))
def token_row_read(f, row, g, partitions):
    s = partitions[row % len(partitions)]
    for column in range(f.maps.modes.columns): tokens_read(f, (column, row), g, s)
def all_tokens_read(f, partitions):
    g = all_(f.maps.modes.columns, f.maps.modes.rows, NO_BLOCKS_READ)
    for row in range(g.rows): token_row_read(f, row, g, partitions)
    return g
def factors_of(h, segment): return factors(index_of(h, segment), h.quantiser)
def inter_mode_class(mode): return mode if mode in ("Zero", "Split") else "Moved"
def mode_class_of(predictor):
    if is_inter(predictor): return inter_mode_class(predictor.motion.mode)
    return "Subblocks" if is_by_subblocks(predictor.modes.luma) else "Whole"
def level_at(f, p, tokens):
    modes = entry(f.maps.modes, p)
    kind = R(reference=modes.reference, prediction=mode_class_of(predictor_at(f, p)), coded=any_token(tokens))
    return filter_level(f.header, modes.segment, kind)
def frame_of(f, partitions, width, height):
    tokens, segment_factors = all_tokens_read(f, partitions), [factors_of(f.header, segment) for segment in range(4)]
    factors_at = lambda p: segment_factors[entry(f.maps.modes, p).segment]
    return R(width=width, height=height, level=lambda p: level_at(f, p, entry(tokens, p)),
             macroblock=lambda p: R(predictor=predictor_at(f, p), tokens=entry(tokens, p), factors=factors_at(p)))
def unfiltered(f): return all_rebuilt(f.macroblock, blank_image(f.width, f.height, 0))
def picture_of(f): return filtered(f.level, unfiltered(f))
# ---- vp_decode/specs/Step.antt. An answer is ("Shown", picture), ("Hidden", None) or ("Fault", fault).
def current_state(state):
    if state is None: raise PacketFault("NoReference")
    return state
def key_context(dim):
    modes = all_(macroblocks(dim.w), macroblocks(dim.h), plain_of(0))
    return R(width=dim.w, height=dim.h, saved=DEFAULTS, modes=modes, references=None, shown=None)
def inter_context(k):
    p, modes = k.references.newest, of_segments(k.segments)
    return R(width=p.width, height=p.height, saved=k.saved, modes=modes, references=k.references, shown=k.shown)
def context_of(key, state): return key_context(key.dim) if key else inter_context(current_state(state))
def tag_length(tag): return 10 if tag.key else 3
def parsed(limits, state, packet):
    tag = tag_of(limits, packet)
    context_, after = context_of(tag.key, state), tag_length(tag) + tag.first_partition
    if len(packet) < after: raise PacketFault("FirstPartition")
    first_ = initial_state(packet[tag_length(tag) : after])
    h, saved = header(context_.saved, tag, first_)
    partitions = cut_of(packet[after:], 2**h.log2_partitions)
    return R(tag=tag, context=context_, header=h, saved=saved, first=first_, partitions=partitions)
def maps_before(modes): return R(modes=modes, motion=all_(modes.columns, modes.rows, INTRA))
def frame_info_of(o):
    maps = maps_read(o.header, maps_before(o.context.modes), o.first)
    return R(header=o.header, version=o.tag.version, references=o.context.references, maps=maps)
def decoded(o):
    f, before = frame_info_of(o), o.context.references
    p = picture_of(frame_of(f, [initial_state(b) for b in o.partitions], o.context.width, o.context.height))
    state_after = R(saved=o.saved, segments=segments_of(f.maps.modes), shown=p if o.tag.show else o.context.shown,
                    references=all_of(p) if before is None else updated(o.header, p, before))
    return state_after, ("Shown", p) if o.tag.show else ("Hidden", None)
def repeated_frame(k): return k, ("Hidden", None) if k.shown is None else ("Shown", k.shown)
def step(limits, state, packet):
    try: return decoded(parsed(limits, state, packet)) if packet else repeated_frame(current_state(state))
    except PacketFault as fault: return None, ("Fault", " ".join(map(str, fault.args)))

# ---- vp_ivf/specs/Ivf.antt and Reader.antt. A fault of the file is text.
def little_number(n, b): return int.from_bytes(b[:n], "little")
def next_head(b):
    if len(b) < 32: return None
    if not b.startswith(b"DKIF"): return "Signature"
    if b[8:12] != b"VP80": return "Codec"
    return R(rate=little_number(4, b[16:]), scale=little_number(4, b[20:]))
def next_size(max_, n, b):
    if len(b) < 12: return None
    if n == 0: return "TooMany"
    size_ = little_number(4, b)
    return "PacketTooLarge" if size_ > max_ else size_ if len(b) >= 12 + size_ else None
def read_file(max_, n, b):
    head, packets = next_head(b), []
    if not isinstance(head, R): return R(head=None, packets=[], fault=head, rest=b)
    b = b[32:]
    while isinstance(size_ := next_size(max_, n, b), int):
        packets.append(b[12 : 12 + size_])
        b, n = b[12 + size_ :], n - 1
    return R(head=head, packets=packets, fault=size_, rest=b)
def finish_answer(r): return r.fault or ("Torn" if r.head is None or r.rest else None)

# ---- vp_y4m/specs/Text.antt
def header_text(w, h, rate, scale): return f"YUV4MPEG2 W{w} H{h} F{rate}:{scale} Ip A0:0 C420jpeg\n".encode()
def picture_text(bytes_): return b"FRAME\n" + bytes_

# ---- vp_stream/specs/Answers.antt, Reports.antt, Texts.antt and Written.antt. Text and report grow with each answer.
def decode_all(limits, y4m, file):
    r, text, first_, state = read_file(limits.packet_bytes, limits.packets, file), [], None, None
    kinds, faults = [], []
    for number, packet in enumerate(r.packets):
        state, (kind, found) = step(limits, state, packet)
        kinds.append(kind)
        if kind == "Shown" and y4m:
            text += [] if first_ else [header_text(found.width, found.height, r.head.rate, r.head.scale)]
            first_ = first_ or found
            if (found.width, found.height) != (first_.width, first_.height): return b"".join(text), None, "SizeChange"
        if kind == "Shown": text.append(picture_text(i420(found)) if y4m else i420(found))
        if kind == "Fault": faults.append((number, found))
    report = R(packets=len(kinds), shown=kinds.count("Shown"), hidden=kinds.count("Hidden"), faults=faults)
    return b"".join(text), report, finish_answer(r)

# ---- the program. The limits are the greatest of vp_base/specs/Limits.antt.
LIMITS = R(pixels=268402689, packet_bytes=268435456, packets=16777216)
def try_sums(path, folder):
    passed, failed = 0, 0
    for name, *wanted in (line.split()[:5] for line in path.read_text().splitlines() if line[:1] != "#"):
        begun, file = time.time(), folder / f"{name}.ivf"
        if not wanted or not file.exists(): continue
        text, report, fault = decode_all(LIMITS, False, file.read_bytes())
        found = [hashlib.md5(text).hexdigest()] + [str(n) for n in (report.packets, report.shown, report.hidden)]
        same = found[: len(wanted)] == wanted
        passed, failed = passed + same, failed + (not same)
        differs = [] if same else ["differs:", *found, fault or ""]
        print(f"{name}:", *differs, f"{time.time() - begun:.1f} s", flush=True)
    print(f"{passed} passed, {failed} failed")
    return failed > 0 or passed == 0
def main(words):
    if words[:1] == ["--sums"] and len(words) in (2, 3):
        return try_sums(pathlib.Path(words[1]), pathlib.Path(words[2]) if words[2:] else pathlib.Path(words[1]).parent)
    y4m = words[:1] == ["--y4m"]
    if words[y4m:] == [] or words[y4m].startswith("-"): sys.exit(__doc__)
    for name in words[y4m:]:
        text, report, fault = decode_all(LIMITS, y4m, pathlib.Path(name).read_bytes())
        told = [f"{key}={found}" for key, found in vars(report or R()).items()] + [fault] * bool(fault)
        print(hashlib.md5(text).hexdigest(), name, *told)
if __name__ == "__main__": sys.exit(main(sys.argv[1:]))
