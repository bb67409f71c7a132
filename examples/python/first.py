"""Writes the first picture of an IVF file as PGM: luma alone. Not proved."""
import sys

import vp8

if len(sys.argv) != 2:
    sys.exit('first.py FILE')
with open(sys.argv[1], 'rb') as file, vp8.Decoder() as decoder:
    for packet in vp8.packets(file.read()):
        try:
            picture = decoder.decode_keeping(packet)
        except vp8.Error as error:  # a damaged packet costs its picture alone
            print(error, file=sys.stderr)
            continue
        if picture:
            header = f'P5 {picture.width} {picture.height} 255\n'
            sys.stdout.buffer.write(header.encode() + picture.y.tobytes())
            break
    else:
        sys.exit(f'{sys.argv[1]}: no picture is shown')
