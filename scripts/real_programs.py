#!/usr/bin/env python3
"""real_programs.py VP8 STREAM..: sees that other programs take what the program VP8 writes. Outside the gate.

For each IVF file it compares
- `VP8 info` with the file's own bytes (size, rate, number and sizes of the packets) and with the number of pictures
  that `VP8 decode` writes,
- `VP8 decode --y4m` with its `decode`: ffprobe, reading the Y4M through a pipe, has to see the size, the rate and
  the number of pictures, and ffmpeg has to get the same pixels out of it.
A stream whose pictures change their size has no Y4M; it is counted apart. Needs ffmpeg and ffprobe (Debian: ffmpeg)."""
import fractions, json, struct, subprocess, sys

program = sys.argv[1]


def run(command, data=b''):
    done = subprocess.run(command, input=data, capture_output=True, timeout=600)
    return done.returncode, done.stdout, done.stderr


def packets_of(data):
    """The sizes of the whole packets of a file."""
    sizes, at = [], 32
    while at + 12 <= len(data):
        size, = struct.unpack_from('<I', data, at)
        if at + 12 + size > len(data):
            break
        sizes.append(size)
        at += 12 + size
    return sizes


def picture_size(width, height):
    return width * height + 2 * ((width + 1) // 2) * ((height + 1) // 2)


def check_info(path, data):
    """What `info` says of a file, beside the file's bytes; gives the number of pictures that are shown."""
    width, height, rate, scale = struct.unpack_from('<HHII', data, 12)
    sizes = packets_of(data)
    status, text, _ = run([program, 'info', path])
    lines = text.decode().splitlines()
    assert lines[:3] == [f'size {width}x{height}', f'rate {rate}/{scale}', f'packets {len(sizes)}'], lines[:3]
    rows = [line.split(' ', 2) for line in lines[3:]]
    assert [(int(number), int(size)) for number, size, _ in rows] == list(enumerate(sizes)), 'sizes of the packets'
    return status, sum(name == 'Shown' for _, _, name in rows)


def check_y4m(path, data, shown, pixels):
    """ffprobe and ffmpeg on the Y4M, through a pipe. False where the pictures change their size."""
    status, y4m, errors = run([program, 'decode', '--y4m', path, '-'])
    if b'SizeChange' in errors:
        return False
    if shown == 0:
        assert y4m == b'', 'a Y4M without pictures'
        return True
    rate, scale = struct.unpack_from('<II', data, 16)
    width, height = [int(word[1:]) for word in y4m[:60].split(b' ')[1:3]]
    assert len(pixels) == shown * picture_size(width, height), 'the size'
    probe = ['ffprobe', '-v', 'error', '-f', 'yuv4mpegpipe', '-count_frames', '-of', 'json', '-show_entries',
             'stream=width,height,avg_frame_rate,r_frame_rate,nb_read_frames', '-']
    found = json.loads(run(probe, y4m)[1])['streams'][0]
    assert (found['width'], found['height']) == (width, height), found
    assert int(found['nb_read_frames']) == shown, found
    if scale:
        assert fractions.Fraction(found['r_frame_rate']) == fractions.Fraction(rate, scale), found
    command = ['ffmpeg', '-v', 'error', '-f', 'yuv4mpegpipe', '-i', '-', '-f', 'rawvideo', '-pix_fmt', 'yuv420p',
               '-fps_mode', 'passthrough', '-']
    assert run(command, y4m)[1] == pixels, 'the pixels'
    return True


same = changes = wrong = 0
for path in sys.argv[2:]:
    try:
        data = open(path, 'rb').read()
        _, pixels, _ = run([program, 'decode', path, '-'])
        _, shown = check_info(path, data)
        if check_y4m(path, data, shown, pixels):
            same += 1
        else:
            changes += 1
    except (AssertionError, ValueError, KeyError, IndexError) as why:
        wrong += 1
        print(f'{path}: {why}')
print(f'{same} streams agree, {changes} change their size and agree in `info`, {wrong} differ')
sys.exit(1 if wrong else 0)
