/* refusals: calls what include/vp8.h says is refused, and compares what other calls give. It ends with 1 where an
 * answer is another one. */
#include <stdio.h>
#include <string.h>

#include "vp8.h"

static int failed;

static void expect(const char *what, vp8_status got, vp8_status wanted)
{
  if (got == wanted) return;
  printf("%s: status %u and not %u\n", what, got, wanted);
  failed = 1;
}

/* A key packet of 16 by 16 pixels without a coefficient, and an inter packet that changes nothing. */
static const uint8_t KEY[10] = { 0x10, 0, 0, 0x9d, 0x01, 0x2a, 0x10, 0, 0x10, 0 };
static const uint8_t INTER[3] = { 0x11, 0, 0 };
static const uint8_t HIDDEN[3] = { 0x01, 0, 0 };

/* The key frame is each of the three references. Its empty first partition is read past its end. */
static void references(vp8_decoder *decoder, uint8_t *y, uint8_t *u, uint8_t *v)
{
  uint32_t width = 0, height = 0, corrupt = 0;
  vp8_frame frame;
  expect("reference size", vp8_decoder_reference_size(decoder, &width, &height), VP8_OK);
  for (uint32_t reference = VP8_LAST; reference <= VP8_ALTREF; reference++)
    expect("reference", vp8_decoder_reference(decoder, reference, y, 256, 16, u, 64, 8, v, 64, 8), VP8_OK);
  expect("short", vp8_decoder_reference(decoder, VP8_LAST, y, 255, 16, u, 64, 8, v, 64, 8), VP8_BUFFER);
  expect("no such one", vp8_decoder_reference(decoder, 0, y, 256, 16, u, 64, 8, v, 64, 8), VP8_NO_PICTURE);
  expect("corrupt", vp8_decoder_corrupt(decoder, &corrupt), VP8_OK);
  expect("frame", vp8_decoder_frame(decoder, &frame), VP8_OK);
  if (width != 16 || height != 16 || corrupt != 1) expect("what they say", VP8_OK, VP8_HIDDEN);
  if (frame.key != 1 || frame.width != 16 || frame.corrupt != 1) expect("what the frame says", VP8_OK, VP8_HIDDEN);
}

/* The picture that is lent is the one that was copied. */
static void lend(vp8_decoder *decoder, const uint8_t *y)
{
  vp8_lent_picture lent;
  expect("lend", vp8_decoder_lend(decoder, &lent), VP8_OK);
  for (uint32_t row = 0; row < lent.height; row++)
    if (memcmp(lent.y.at + row * lent.y.stride, y + row * 16, lent.width))
      expect("another picture", VP8_OK, VP8_HIDDEN);
}

static void decoders(void)
{
  uint8_t y[256], u[64], v[64];
  uint32_t width = 7, height = 7;
  vp8_lent_picture lent;
  vp8_frame frame;
  vp8_decoder decoder = VP8_INIT;
  expect("closed", vp8_decoder_decode(&decoder, KEY, sizeof KEY), VP8_CLOSED);
  expect("no limits", vp8_decoder_new(&decoder, 0), VP8_LIMITS);
  expect("new", vp8_decoder_new(&decoder, 256), VP8_OK);
  expect("new again", vp8_decoder_new(&decoder, 256), VP8_OPEN);
  expect("no picture", vp8_decoder_size(&decoder, &width, &height), VP8_NO_PICTURE);
  expect("inter first", vp8_decoder_decode(&decoder, INTER, sizeof INTER), VP8_NO_REFERENCE);
  expect("cut", vp8_decoder_decode(&decoder, KEY, 9), VP8_TRUNCATED);
  expect("key", vp8_decoder_decode(&decoder, KEY, sizeof KEY), VP8_OK);
  expect("size", vp8_decoder_size(&decoder, &width, &height), VP8_OK);
  expect("16 by 16", width * 1000 + height, 16016);
  expect("short row", vp8_decoder_copy(&decoder, y, 256, 15, u, 64, 8, v, 64, 8), VP8_BUFFER);
  expect("short plane", vp8_decoder_copy(&decoder, y, 256, 16, u, 63, 8, v, 64, 8), VP8_BUFFER);
  expect("copy", vp8_decoder_copy(&decoder, y, 256, 16, u, 64, 8, v, 64, 8), VP8_OK);
  /* The first four rows of such a packet are 128, those below 129; colour is 128. */
  expect("pixels", y[63] * 1000000 + y[64] * 1000 + u[63], 128129128);
  references(&decoder, y, u, v);
  lend(&decoder, y);
  expect("hidden", vp8_decoder_decode(&decoder, HIDDEN, sizeof HIDDEN), VP8_HIDDEN);
  expect("nothing shown", vp8_decoder_size(&decoder, &width, &height), VP8_NO_PICTURE);
  expect("nothing to lend", vp8_decoder_lend(&decoder, &lent), VP8_NO_PICTURE);
  expect("damage", vp8_decoder_decode_keeping(&decoder, KEY, 9), VP8_TRUNCATED);
  expect("nothing shown after damage", vp8_decoder_size(&decoder, &width, &height), VP8_NO_PICTURE);
  expect("no frame after damage", vp8_decoder_frame(&decoder, &frame), VP8_NO_PICTURE);
  expect("inter after damage", vp8_decoder_decode_keeping(&decoder, INTER, sizeof INTER), VP8_OK);
  expect("fault", vp8_decoder_decode(&decoder, KEY, 9), VP8_TRUNCATED);
  expect("inter after a fault", vp8_decoder_decode_keeping(&decoder, INTER, sizeof INTER), VP8_NO_REFERENCE);
  vp8_decoder_free(&decoder);
  vp8_decoder_free(&decoder);
  expect("after free", vp8_decoder_decode(&decoder, KEY, sizeof KEY), VP8_CLOSED);
  expect("lend after free", vp8_decoder_lend(&decoder, &lent), VP8_CLOSED);
  expect("damage after free", vp8_decoder_corrupt(&decoder, &width), VP8_CLOSED);
  expect("frame after free", vp8_decoder_frame(&decoder, &frame), VP8_CLOSED);
  expect("references after free", vp8_decoder_reference_size(&decoder, &width, &height), VP8_CLOSED);
}

static void streams(void)
{
  uint8_t picture[384];
  vp8_stream stream = VP8_INIT;
  vp8_stream_info info;
  expect("closed stream", vp8_stream_picture_at(&stream, 0), VP8_CLOSED);
  const uint8_t *text = (const uint8_t *)"no IVF file, but over 32 bytes of a text";
  expect("no IVF file", vp8_stream_new(&stream, text, 40), VP8_OK);
  expect("its info", vp8_stream_get_info(&stream, &info), VP8_OK);
  expect("its fault", info.fault, VP8_SIGNATURE);
  expect("its packets", vp8_stream_picture_at(&stream, 0), VP8_NO_PACKET);
  expect("its picture", vp8_stream_copy_i420(&stream, picture, sizeof picture), VP8_NO_PICTURE);
  vp8_stream_free(&stream);
}

/* A file of 16 by 16 pixels with the key packet and five of the twelve bytes before a second one. */
static const uint8_t FILE_OF_ONE[59] = {
  'D', 'K', 'I', 'F', 0, 0, 32, 0, 'V', 'P', '8', '0', 16, 0, 16, 0, 30, 0, 0, 0, 1, 0, 0, 0, 1, 0, 0, 0, 0, 0, 0, 0,
  10, 0, 0, 0, 0, 0, 0, 0, 0, 0, 0, 0, 0x10, 0, 0, 0x9d, 0x01, 0x2a, 0x10, 0, 0x10, 0, 3, 0, 0, 0, 1 };

static void growing_streams(void)
{
  uint8_t picture[384];
  vp8_stream stream = VP8_INIT;
  vp8_stream_info info;
  expect("feed closed", vp8_stream_feed(&stream, FILE_OF_ONE, 59), VP8_CLOSED);
  expect("finish closed", vp8_stream_finish(&stream), VP8_CLOSED);
  expect("new empty", vp8_stream_new_empty(&stream), VP8_OK);
  expect("new empty again", vp8_stream_new_empty(&stream), VP8_OPEN);
  expect("no packet yet", vp8_stream_picture_at(&stream, 0), VP8_NO_PACKET);
  for (int at = 0; at < 53; at++) expect("a byte", vp8_stream_feed(&stream, FILE_OF_ONE + at, 1), VP8_OK);
  expect("a packet without its last byte", vp8_stream_picture_at(&stream, 0), VP8_NO_PACKET);
  expect("the rest", vp8_stream_feed(&stream, FILE_OF_ONE + 53, 6), VP8_OK);
  expect("its info", vp8_stream_get_info(&stream, &info), VP8_OK);
  expect("no fault so far", info.packets * 1000 + info.fault, 1000);
  expect("its packet", vp8_stream_picture_at(&stream, 0), VP8_OK);
  expect("its picture", vp8_stream_copy_i420(&stream, picture, sizeof picture), VP8_OK);
  expect("its pixels", picture[63] * 1000000 + picture[64] * 1000 + picture[256], 128129128);
  expect("finish", vp8_stream_finish(&stream), VP8_TORN);
  expect("finish again", vp8_stream_finish(&stream), VP8_TORN);
  expect("feed after finish", vp8_stream_feed(&stream, FILE_OF_ONE, 59), VP8_ENDED);
  expect("its info", vp8_stream_get_info(&stream, &info), VP8_OK);
  expect("its fault", info.packets * 1000 + info.fault, 1000 + VP8_TORN);
  expect("its packet after finish", vp8_stream_picture_at(&stream, 0), VP8_OK);
  vp8_stream_free(&stream);
  expect("whole", vp8_stream_new(&stream, FILE_OF_ONE, 54), VP8_OK);
  expect("feed a whole file", vp8_stream_feed(&stream, FILE_OF_ONE, 59), VP8_ENDED);
  expect("finish a whole file", vp8_stream_finish(&stream), VP8_OK);
  vp8_stream_free(&stream);
  expect("new empty after free", vp8_stream_new_empty(&stream), VP8_OK);
  expect("no IVF file", vp8_stream_feed(&stream, FILE_OF_ONE + 1, 32), VP8_SIGNATURE);
  expect("feed after a fault", vp8_stream_feed(&stream, FILE_OF_ONE, 59), VP8_SIGNATURE);
  expect("finish after a fault", vp8_stream_finish(&stream), VP8_SIGNATURE);
  vp8_stream_free(&stream);
}

/* Packets of 17 by 1 pixels: a key packet, an inter packet that only golden is refreshed with, and one for altref
 * alone. */
static const uint8_t FIRST[] = {
  0x90, 2, 0, 0x9d, 1, 0x2a, 0x11, 0, 1, 0, 0, 0, 0, 0, 0, 0, 0, 0, 0, 0, 0, 0, 0, 0, 0, 0, 0, 0, 0, 0, 0xa7, 0xe9,
  0x8c, 0xbc, 0xd0, 0xc8, 0x1a, 0xcc, 0xe9, 0x31, 0xbc, 0x41, 0x0b, 0x89, 0x67, 0x5c, 0x2c, 0x87, 0x47, 0xf7, 0x7c,
  0x89, 0x3f, 0x56, 0x91, 0x58, 0x0a, 0x96, 0xf9, 0x67, 0xc9, 0x0a, 0xf1, 0x65, 0x84, 0xe8, 0x27, 0xe7, 0xc0, 0x97 };
static const uint8_t GOLDEN[] = {
  0x31, 2, 0, 0, 0, 0xf0, 0x20, 0, 0, 0x97, 0xf1, 0x61, 0, 0, 0, 0, 0, 0, 0, 0, 0xf1, 0x56, 0xfd, 0x1d, 0xdb, 0xfd,
  0xd7, 0x91, 0xcc, 0x9f, 0xbb, 0x92, 0xf7, 0x8a, 0x91, 0x97, 0x0d, 7, 0x7d, 0x15, 0x50, 0xd1, 0xc7, 0x1b, 0xa1,
  0xcb, 0x19, 0xa3, 0x25, 0x72 };
static const uint8_t ALTREF[] = {
  0x31, 2, 0, 0, 0, 0xf0, 0x10, 0, 0, 0x97, 0xf1, 0x61, 0, 0, 0, 0, 0, 0, 0, 0, 0xbc, 0xe9, 0xed, 0xf8, 0x87, 0xbe,
  0xa3, 0x99, 0xdd, 0x51, 0x67, 0xe9, 0x9f, 0x5b, 0x2a, 0xe4, 0x52, 0x61, 0x62, 0x47, 0xaa, 0xd2, 0x3b, 0x9a, 0xf8,
  0x5f, 0xda, 0xe5, 0x60, 0xbc };

/* The pictures that they show by vpxdec and by ffmpeg: Y, U and V. */
static const uint8_t PICTURES[3][35] = {
  { 128, 128, 128, 128, 129, 129, 129, 129, 128, 127, 128, 129, 125, 126, 127, 127, 128,
    128, 128, 128, 128, 128, 128, 128, 128, 128,
    128, 128, 128, 128, 127, 128, 128, 129, 129 },
  { 127, 127, 127, 127, 127, 127, 127, 127, 127, 127, 127, 127, 127, 127, 127, 127, 127,
    128, 128, 128, 128, 125, 125, 125, 125, 128,
    128, 128, 128, 128, 128, 128, 128, 128, 128 },
  { 128, 128, 128, 128, 128, 128, 128, 128, 134, 134, 134, 134, 134, 130, 126, 123, 127,
    133, 133, 133, 133, 128, 128, 128, 128, 128,
    128, 128, 128, 128, 125, 125, 125, 125, 128 } };

static int is_lent(const vp8_lent_picture *lent, const uint8_t *wanted)
{
  return lent->width == 17 && lent->height == 1 && memcmp(lent->y.at, wanted, 17) == 0 &&
         memcmp(lent->u.at, wanted + 17, 9) == 0 && memcmp(lent->v.at, wanted + 26, 9) == 0;
}

/* No plane is taken for another one, nor a reference frame. */
static void planes_and_references(void)
{
  const uint8_t *packets[3] = { FIRST, GOLDEN, ALTREF };
  const size_t lens[3] = { sizeof FIRST, sizeof GOLDEN, sizeof ALTREF };
  uint8_t copy[35];
  vp8_lent_picture lent;
  vp8_decoder decoder = VP8_INIT;
  expect("new", vp8_decoder_new(&decoder, 17), VP8_OK);
  for (int k = 0; k < 3; k++) {
    expect("a packet", vp8_decoder_decode(&decoder, packets[k], lens[k]), VP8_OK);
    expect("copy", vp8_decoder_copy(&decoder, copy, 17, 17, copy + 17, 9, 9, copy + 26, 9, 9), VP8_OK);
    expect("planes", memcmp(copy, PICTURES[k], 35) == 0, 1);
    expect("lend", vp8_decoder_lend(&decoder, &lent), VP8_OK);
    expect("lent planes", is_lent(&lent, PICTURES[k]), 1);
  }
  for (uint32_t k = 0; k < 3; k++) {
    expect("a reference",
           vp8_decoder_reference(&decoder, VP8_LAST + k, copy, 17, 17, copy + 17, 9, 9, copy + 26, 9, 9), VP8_OK);
    expect("its planes", memcmp(copy, PICTURES[k], 35) == 0, 1);
  }
  vp8_decoder_free(&decoder);
}

/* A file of 16 by 16 pixels, by cwebp: its key packet is the 28 bytes from 20 on, by webpinfo. */
static const uint8_t WEBP[48] = {
  0x52, 0x49, 0x46, 0x46, 0x28, 0, 0, 0, 0x57, 0x45, 0x42, 0x50, 0x56, 0x50, 0x38, 0x20, 0x1c, 0, 0, 0, 0x50, 1, 0,
  0x9d, 1, 0x2a, 0x10, 0, 0x10, 0, 7, 0x40, 0x96, 0x25, 0xa4, 0, 4, 0x74, 0, 0, 0xfe, 0x83, 0xff, 0xfd, 0x7c, 0, 0, 0 };

static void webp_files(void)
{
  uint8_t out[48];
  size_t start = 7, len = 7, size = 7;
  expect("a cut file", vp8_webp_packet(WEBP, 47, &start, &len), VP8_TORN);
  expect("no WebP file", vp8_webp_packet(WEBP + 1, 47, &start, &len), VP8_SIGNATURE);
  expect("nothing written", start * 10 + len, 77);
  expect("a WebP file", vp8_webp_packet(WEBP, 48, &start, &len), VP8_OK);
  expect("its packet", start * 100 + len, 2028);
  expect("no key packet", vp8_webp_file_size(INTER, sizeof INTER, &size), VP8_NOT_KEY);
  expect("a packet's file", vp8_webp_file_size(WEBP + start, len, &size), VP8_OK);
  expect("its size", size, 48);
  expect("a short buffer", vp8_webp_file(WEBP + start, len, out, 47), VP8_BUFFER);
  expect("the file", vp8_webp_file(WEBP + start, len, out, 48), VP8_OK);
  expect("its bytes", memcmp(out, WEBP, 48) == 0, 1);
}

static void encoders(void)
{
  uint8_t grey[256];
  size_t size;
  uint64_t error;
  vp8_settings settings = { .qi = 128, .key_every = 1, .partitions = 1 };
  vp8_encoder encoder = VP8_INIT;
  memset(grey, 128, sizeof grey);
  expect("settings", vp8_encoder_new(&encoder, 16, 16, &settings), VP8_SETTINGS);
  settings.qi = 0;
  expect("sides", vp8_encoder_new(&encoder, 16, 0, &settings), VP8_DIMENSIONS);
  expect("encoder", vp8_encoder_new(&encoder, 16, 16, &settings), VP8_OK);
  expect("no packet", vp8_encoder_packet_size(&encoder, &size), VP8_NO_PICTURE);
  expect("short source", vp8_encoder_encode(&encoder, grey, 255, 16, grey, 64, 8, grey, 64, 8), VP8_BUFFER);
  expect("encode", vp8_encoder_encode(&encoder, grey, 256, 16, grey, 64, 8, grey, 64, 8), VP8_OK);
  expect("error", vp8_encoder_squared_error(&encoder, &error), VP8_OK);
  vp8_encoder_free(&encoder);
  expect("freed", vp8_encoder_squared_error(&encoder, &error), VP8_CLOSED);
}

static void names(void)
{
  uint8_t name[32];
  expect("a name's length", vp8_status_name(VP8_TOO_LARGE, name, sizeof name), 8);
  expect("a name", strcmp((char *)name, "TooLarge") == 0, 1);
  expect("a partition's name",
         vp8_status_name(VP8_PARTITION + 2, name, sizeof name) == 11 && strcmp((char *)name, "Partition 2") == 0, 1);
  expect("no status", vp8_status_name(999999, name, sizeof name), 0);
}

int main(void)
{
  decoders();
  streams();
  growing_streams();
  planes_and_references();
  webp_files();
  encoders();
  names();
  return failed;
}
