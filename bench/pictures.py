"""Moving synthetic pictures, and how long a command takes."""
import resource, subprocess


def picture(width, height, t):
    """A gradient that moves, with a grid of squares and some noise."""
    rows = bytearray()
    seed = (t * 2654435761 + 12345) & 0xFFFFFFFF
    for y in range(height):
        for x in range(width):
            seed = (seed * 1103515245 + 12345) & 0x7FFFFFFF
            v = (x + 2 * t) // 2 + (y + t) // 3 + (40 if ((x + 3 * t) // 32 + y // 32) % 2 else 0) + (seed >> 27)
            rows.append(v & 255)
    chroma = bytes(((x * 3 + y + t) // 4) & 255 for y in range(height // 2) for x in range(width // 2))
    return bytes(rows) + chroma + chroma[::-1]


def write_y4m(path, width, height, frames):
    with open(path, 'wb') as out:
        out.write(b'YUV4MPEG2 W%d H%d F30:1 Ip A0:0 C420jpeg\n' % (width, height))
        for t in range(frames):
            out.write(b'FRAME\n' + picture(width, height, t))


def seconds(command, runs=3):
    """The least processor time of some runs."""
    times = []
    for _ in range(runs):
        before = resource.getrusage(resource.RUSAGE_CHILDREN)
        subprocess.run(command, check=True, capture_output=True)
        after = resource.getrusage(resource.RUSAGE_CHILDREN)
        times.append(after.ru_utime + after.ru_stime - before.ru_utime - before.ru_stime)
    return min(times)
