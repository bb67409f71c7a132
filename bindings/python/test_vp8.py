"""Tests of vp8.py: python3 -m unittest, with VP8_LIBRARY naming the shared library.

VP8_STREAMS may name a folder of IVF files, and VP8_SUMS a file with lines NAME MD5: the sums of their pictures, from
another decoder."""
import copy
import hashlib
import os
import pathlib
import pickle
import threading
import unittest

import vp8

# A key packet of 17 by 1 pixels whose first partition is empty: each pixel of its picture is 128.
KEY = bytes([0x10, 0, 0, 0x9d, 0x01, 0x2a, 17, 0, 1, 0])
HIDDEN = bytes([0x01, 0, 0])
# A key packet that libvpx finds complete, and read past its end with one byte less.
WHOLE = bytes.fromhex('9002009d012a11000100000000000000000000000000000000000000000029f88512004af0bfa30b8b')

# Packets of 17 by 1 pixels: a key packet, an inter packet that only golden is refreshed with, and one for altref alone.
# The pictures that they show by vpxdec and by ffmpeg.
PACKETS = (
    bytes.fromhex('9002009d012a110001000000000000000000000000000000000000000000a7e98cbcd0c81acce931bc410b89675c2c8747f7'
                  '7c893f5691580a96f967c90af16584e827e7c097'),
    bytes.fromhex('3102000000f020000097f1610000000000000000'
                  'f156fd1ddbfdd791cc9fbb92f78a91970d077d1550d1c71ba1cb19a32572'),
    bytes.fromhex('3102000000f010000097f1610000000000000000'
                  'bce9edf887bea399dd5167e99f5b2ae452616247aad23b9af85fdae560bc'),
)
PICTURES = (
    bytes.fromhex('8080808081818181807f80817d7e7f7f80808080808080808080808080807f80808181'),
    bytes.fromhex('7f7f7f7f7f7f7f7f7f7f7f7f7f7f7f7f7f808080807d7d7d7d80808080808080808080'),
    bytes.fromhex('80808080808080808686868686827e7b7f858585858080808080808080807d7d7d7d80'),
)

# A file of 16 by 16 pixels, by cwebp: its key packet is the 28 bytes from 20 on, by webpinfo. The left half is light,
# and the right half dark: 186 and 50 by dwebp.
WEBP = bytes.fromhex('524946462800000057454250565038201c0000005001009d012a1000100007409625a40004740000fe83fffd7c000000')


def ivf(*packets):
    head = b'DKIF' + bytes([0, 0, 32, 0]) + b'VP80' + bytes([17, 0, 1, 0, 30, 0, 0, 0, 2, 0, 0, 0]) + bytes(8)
    return head + b''.join(len(packet).to_bytes(4, 'little') + bytes(8) + packet for packet in packets)


def status_of(call, *arguments):
    try:
        call(*arguments)
    except vp8.Error as error:
        return error.status, error.name
    return vp8.OK, ''


class Packets(unittest.TestCase):
    def test_whole_packets_are_given(self):
        data = ivf(KEY, b'', HIDDEN)
        self.assertEqual([bytes(packet) for packet in vp8.packets(data)], [KEY, b'', HIDDEN])
        self.assertEqual(len(list(vp8.packets(data[:-1]))), 2)
        self.assertEqual(list(vp8.packets(b'')), [])


class WebP(unittest.TestCase):
    def test_a_file_is_read(self):
        picture = vp8.webp_picture(WEBP)
        self.assertEqual((picture.width, picture.height), (16, 16))
        self.assertEqual(picture.data, (bytes([186]) * 8 + bytes([50]) * 8) * 16 + bytes([128]) * 128)
        for data in (WEBP, bytearray(WEBP), memoryview(b'x' + WEBP)[1:]):
            self.assertEqual(vp8.webp_packet(data), WEBP[20:])

    def test_a_file_is_made(self):
        self.assertEqual(vp8.webp_file(WEBP[20:]), WEBP)
        self.assertEqual(len(vp8.webp_file(WEBP[20:47])), 48)

    def test_faults_are_named(self):
        self.assertEqual(status_of(vp8.webp_packet, WEBP[:47]), (vp8.TORN, 'Torn'))
        self.assertEqual(status_of(vp8.webp_picture, WEBP[1:]), (vp8.SIGNATURE, 'Signature'))
        self.assertEqual(status_of(vp8.webp_packet, WEBP.replace(b'VP8 ', b'VP8L')), (vp8.LOSSLESS, 'Lossless'))
        self.assertEqual(status_of(vp8.webp_file, HIDDEN), (vp8.NOT_KEY, 'NotKey'))
        self.assertEqual(status_of(vp8.webp_file, b'\x40' + WEBP[21:]), (vp8.HIDDEN, 'Hidden'))


class Decoders(unittest.TestCase):
    def test_a_picture_is_decoded(self):
        with vp8.Decoder(17) as decoder:
            picture = decoder.decode(KEY)
            self.assertEqual((picture.width, picture.height), (17, 1))
            self.assertEqual(picture.data, bytes([128]) * (17 + 9 + 9))
            self.assertEqual((picture.y.shape, picture.u.shape, picture.v.shape), ((1, 17), (1, 9), (1, 9)))
            picture.y[0, 16] = 1
            self.assertEqual(picture.data[16], 1)
            self.assertEqual(decoder.decode(b'').data, bytes([128]) * 35)
            self.assertIsNone(decoder.decode(HIDDEN))

    def test_packets_are_buffers(self):
        with vp8.Decoder() as decoder:
            for packet in (KEY, bytearray(KEY), memoryview(b'x' + KEY)[1:]):
                self.assertEqual(decoder.decode(packet).width, 17)
            for packet in (None, 5, 'text'):
                self.assertRaises(TypeError, decoder.decode, packet)

    def test_faults_are_named(self):
        with vp8.Decoder() as decoder:
            self.assertEqual(status_of(decoder.decode, HIDDEN), (vp8.NO_REFERENCE, 'NoReference'))
            self.assertEqual(status_of(decoder.decode, b'\x10'), (vp8.TRUNCATED, 'Truncated'))
        with vp8.Decoder(16) as decoder:
            self.assertEqual(status_of(decoder.decode, KEY), (vp8.TOO_LARGE, 'TooLarge'))

    def test_decoding_goes_on_after_damage(self):
        inter = bytes([0x11, 0, 0])
        with vp8.Decoder(17) as decoder:
            decoder.decode_keeping(KEY)
            self.assertEqual(status_of(decoder.decode_keeping, KEY[:9]), (vp8.TRUNCATED, 'Truncated'))
            self.assertEqual(decoder.decode_keeping(b'').data, bytes([128]) * 35)
            self.assertEqual(decoder.decode_keeping(inter).data, bytes([128]) * 35)
            self.assertEqual(status_of(decoder.decode, KEY[:9])[0], vp8.TRUNCATED)
            self.assertEqual(status_of(decoder.decode_keeping, inter)[0], vp8.NO_REFERENCE)

    def test_damage_is_told(self):
        with vp8.Decoder(17) as decoder:
            self.assertFalse(decoder.is_corrupt)
            for packet, is_corrupt in ((WHOLE, False), (WHOLE[:-1], True), (b'', False), (WHOLE[:-1], True)):
                decoder.decode_keeping(packet)
                self.assertEqual(decoder.is_corrupt, is_corrupt)
            self.assertEqual(status_of(decoder.decode_keeping, KEY[:9])[0], vp8.TRUNCATED)
            self.assertFalse(decoder.is_corrupt)

    def test_references_are_copied(self):
        with vp8.Decoder(17) as decoder:
            self.assertEqual(status_of(decoder.reference, vp8.LAST)[0], vp8.NO_PICTURE)
            picture = decoder.decode(WHOLE)
            for number in (vp8.LAST, vp8.GOLDEN, vp8.ALTREF):
                self.assertEqual(decoder.reference(number).data, picture.data)
            self.assertEqual(status_of(decoder.reference, 0)[0], vp8.NO_PICTURE)

    def test_pictures_are_lent(self):
        with vp8.Decoder(17) as decoder:
            with self.assertRaises(vp8.Error), decoder.lend():
                pass
            picture = decoder.decode(WHOLE)
            with decoder.lend() as lent:
                self.assertEqual((lent.width, lent.height, lent.y.shape), (17, 1, (1, 32)))
                for name in 'yuv':
                    copied = getattr(picture, name)
                    rows = [row[:copied.shape[1]] for row in getattr(lent, name).tolist()]
                    self.assertEqual(rows, copied.tolist())
                self.assertRaises(TypeError, lent.y.__setitem__, (0, 0), 1)
            self.assertRaises(ValueError, lent.y.tolist)

    def test_planes_and_references_are_told_apart(self):
        with vp8.Decoder(17) as decoder:
            for packet, wanted in zip(PACKETS, PICTURES):
                self.assertEqual(decoder.decode(packet).data, wanted)
                with decoder.lend() as lent:
                    rows = [bytes(plane)[:width] for plane, width in ((lent.y, 17), (lent.u, 9), (lent.v, 9))]
                    self.assertEqual(b''.join(rows), wanted)
            for number, wanted in zip((vp8.LAST, vp8.GOLDEN, vp8.ALTREF), PICTURES):
                self.assertEqual(decoder.reference(number).data, wanted)

    def test_packets_are_peeked(self):
        self.assertEqual(vp8.peek(KEY), vp8.PacketInfo(True, True, 17, 1))
        self.assertEqual(vp8.peek(bytearray(HIDDEN)), vp8.PacketInfo(False, False, 0, 0))
        self.assertEqual(status_of(vp8.peek, KEY[:9]), (vp8.TRUNCATED, 'Truncated'))

    def test_facts_of_frames(self):
        with vp8.Decoder(17) as decoder:
            self.assertIsNone(decoder.frame)
            for packet, is_corrupt in ((WHOLE, False), (WHOLE[:-1], True)):
                decoder.decode(packet)
                facts = vp8.Frame(True, 0, True, 17, 1, 0, 0, 0, True, True, True, is_corrupt)
                self.assertEqual(decoder.frame, facts)
            decoder.decode(HIDDEN)
            facts = vp8.Frame(False, 0, False, 17, 1, 0, 0, 0, False, False, False, True)
            self.assertEqual(decoder.frame, facts)
            decoder.decode(b'')
            self.assertIsNone(decoder.frame)
            self.assertEqual(status_of(decoder.decode, KEY[:9])[0], vp8.TRUNCATED)
            self.assertIsNone(decoder.frame)

    def test_limits(self):
        for limit in (0, 268402690, -1, 1 << 32):
            self.assertEqual(status_of(vp8.Decoder, limit)[0], vp8.LIMITS)

    def test_closing_and_copying(self):
        decoder = vp8.Decoder()
        self.assertRaises(TypeError, copy.copy, decoder)
        self.assertRaises(TypeError, copy.deepcopy, decoder)
        self.assertRaises(TypeError, pickle.dumps, decoder)
        decoder.close()
        decoder.close()
        self.assertEqual(status_of(decoder.decode, KEY)[0], vp8.CLOSED)

    def test_one_decoder_in_many_threads(self):
        wrong = []

        def decode():
            for _ in range(200):
                if decoder.decode(KEY).data != bytes([128]) * 35:
                    wrong.append(1)

        with vp8.Decoder() as decoder:
            threads = [threading.Thread(target=decode) for _ in range(8)]
            for thread in threads:
                thread.start()
            for thread in threads:
                thread.join()
        self.assertEqual(wrong, [])


class Streams(unittest.TestCase):
    def test_pictures_by_number(self):
        with vp8.Stream(ivf(KEY, HIDDEN, b'\x11')) as stream:
            self.assertEqual(stream.info, (17, 1, 30, 2, 3, vp8.OK))
            self.assertEqual(len(stream), 3)
            self.assertEqual(stream[0].data, bytes([128]) * 35)
            self.assertIsNone(stream[1])
            self.assertEqual(status_of(stream.__getitem__, 2), (vp8.TRUNCATED, 'Truncated'))
            for number in (3, -1, 1 << 32):
                self.assertRaises(IndexError, stream.__getitem__, number)

    def test_damaged_files(self):
        with vp8.Stream(b'') as stream:
            self.assertEqual(stream.info, (0, 0, 0, 0, 0, vp8.TORN))
        with vp8.Stream(ivf(KEY, KEY)[:-1]) as stream:
            self.assertEqual((len(stream), stream.info.fault), (1, vp8.TORN))
        stream.close()
        self.assertEqual(status_of(len, stream)[0], vp8.CLOSED)

    def test_pieces_are_fed(self):
        data = ivf(KEY, HIDDEN, b'\x11', KEY)
        with vp8.Stream() as stream, vp8.Stream(data) as whole:
            self.assertEqual(stream.info, (0, 0, 0, 0, 0, vp8.OK))
            for at in range(len(data)):
                stream.feed(memoryview(data)[at:at + 1])
                self.assertEqual(len(stream), len(list(vp8.packets(data[:at + 1]))))
                self.assertEqual(status_of(stream.picture_at, len(stream)), (vp8.NO_PACKET, 'NoPacket'))
            stream.finish()
            stream.finish()
            self.assertEqual(status_of(stream.feed, b''), (vp8.ENDED, 'Ended'))
            self.assertEqual(status_of(whole.feed, b''), (vp8.ENDED, 'Ended'))
            self.assertEqual(stream.info, whole.info)
            for number in (0, 1, 2, 3, 0, 3, 1):
                self.assertEqual(status_of(stream.picture_at, number), status_of(whole.picture_at, number))
            self.assertEqual(stream.picture_at(3).data, bytes([128]) * 35)
            self.assertEqual(status_of(stream.picture_at, -1)[0], vp8.NO_PACKET)
        self.assertEqual(status_of(stream.feed, data)[0], vp8.CLOSED)
        self.assertEqual(status_of(stream.finish)[0], vp8.CLOSED)

    def test_faults_of_pieces(self):
        with vp8.Stream() as stream:
            stream.feed(ivf(KEY)[:-1])
            self.assertEqual(stream.info.fault, vp8.OK)
            self.assertEqual(status_of(stream.finish), (vp8.TORN, 'Torn'))
            self.assertEqual(stream.info.fault, vp8.TORN)
        with vp8.Stream() as stream:
            for piece in (bytes(32), ivf(KEY)):
                self.assertEqual(status_of(stream.feed, piece), (vp8.SIGNATURE, 'Signature'))
            self.assertEqual(status_of(stream.finish)[0], vp8.SIGNATURE)


@unittest.skipUnless('VP8_STREAMS' in os.environ, 'VP8_STREAMS is not set')
class Sums(unittest.TestCase):
    def test_sums_of_streams(self):
        rows = [line.split() for line in pathlib.Path(os.environ['VP8_SUMS']).read_text().splitlines()]
        sums = {row[0]: row[1] for row in rows if len(row) > 1 and row[0] != '#'}
        paths = [path for path in sorted(pathlib.Path(os.environ['VP8_STREAMS']).glob('*.ivf')) if path.stem in sums]
        self.assertTrue(paths)
        right = 0
        for path in paths:
            data, found = path.read_bytes(), hashlib.md5()
            with self.subTest(path.name), vp8.Decoder() as decoder, vp8.Stream(data) as stream, vp8.Stream() as fed:
                fed.feed(data[:32])
                for number, packet in enumerate(vp8.packets(data)):
                    picture = decoder.decode(packet)
                    found.update(picture.data if picture else b'')
                    fed.feed(len(packet).to_bytes(4, 'little') + bytes(8) + packet)
                    by_number = fed.picture_at(number)
                    self.assertEqual(by_number and by_number.data, picture and picture.data)
                    if number % 7 == 0:
                        by_number = stream[number]
                        self.assertEqual(by_number and by_number.data, picture and picture.data)
                self.assertEqual(found.hexdigest(), sums[path.stem])
                right += 1
        print(f'{right} of {len(paths)} streams have the expected sums')


if __name__ == '__main__':
    unittest.main()
