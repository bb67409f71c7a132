/* check_packets VARIANTS FILE.ivf..: checks the libvpx interface against libvp8 itself, packet by packet.
 *
 * Not proved: the whole file; it is a test. Each file is decoded as it is, and then VARIANTS times with random damage,
 * which is the same in each run. Each packet lies in memory of its own length, so that AddressSanitizer sees a read
 * past its end. Packets go through vpx_codec_decode as they are, in fragments, or encrypted, in turn. Prints the
 * differences, then totals.
 *
 *     cc -Iinclude -Iexamples/c shim/check_packets.c -Lout -lvpx-vp8 -o check_packets
 */
#define _POSIX_C_SOURCE 200809L
#include <stdio.h>
#include <stdlib.h>
#include <string.h>

#include <vpx/vp8dx.h>
#include <vpx/vpx_decoder.h>

#include "ivf.h"
#include "planes.h"
#include "vp8.h"

#define MAX_PIXELS 1048576
#define MAX_PIXELS_TEXT "1048576"

enum { AS_IT_IS, IN_FRAGMENTS, ENCRYPTED, HANDOVERS };

static uint8_t cipher = 0x5a;
static unsigned long packets, pictures, refused, differences;
static const char *path;
static int variant;

static void expect(int holds, unsigned long packet, const char *what)
{
  if (holds) return;
  differences++;
  printf("%s, variant %d, packet %lu: %s\n", path, variant, packet, what);
}

/* A copy in memory of its own length. */
static uint8_t *copy_of(const uint8_t *bytes, size_t len)
{
  uint8_t *copy = malloc(len);
  if (!copy) abort();
  memcpy(copy, bytes, len);
  return copy;
}

/* ---- damage */

static uint32_t random_state;

static uint32_t random_below(uint32_t end)
{
  random_state = random_state * 1664525 + 1013904223;
  return (uint32_t)((uint64_t)random_state * end >> 32);
}

/* Damages one packet in four: some bytes near its start or anywhere change, or it is cut. Returns the new length. */
static size_t damage(uint8_t *packet, size_t len)
{
  if (!len || random_below(4)) return len;
  uint32_t kind = random_below(8);
  if (kind == 0) return 1 + random_below((uint32_t)len);
  if (kind == 1) return 1 + random_below(len < 12 ? (uint32_t)len : 12);
  uint32_t reach = kind < 5 && len > 24 ? 24 : (uint32_t)len;
  for (uint32_t count = 1 + random_below(4); count; count--) packet[random_below(reach)] = (uint8_t)random_below(256);
  return len;
}

/* ---- one packet by both interfaces */

static void decrypt(void *state, const unsigned char *input, unsigned char *output, int count)
{
  for (int n = 0; n < count; n++) output[n] = input[n] ^ *(const uint8_t *)state;
}

static vpx_codec_err_t hand_over(vpx_codec_ctx_t *codec, int handover, const uint8_t *packet, size_t len, void *user)
{
  if (handover == AS_IT_IS) return vpx_codec_decode(codec, packet, (unsigned int)len, user, 0);
  if (handover == ENCRYPTED) {
    uint8_t *encrypted = copy_of(packet, len);
    for (size_t n = 0; n < len; n++) encrypted[n] ^= cipher;
    vpx_codec_err_t error = vpx_codec_decode(codec, encrypted, (unsigned int)len, user, 0);
    free(encrypted);
    return error;
  }
  for (size_t piece = len / 3 + 1, at = 0; at < len; at += piece) {
    vpx_codec_err_t error =
      vpx_codec_decode(codec, packet + at, (unsigned int)(len - at < piece ? len - at : piece), user, 0);
    if (error) return error;
  }
  return vpx_codec_decode(codec, NULL, 0, user, 0);
}

static int same_rows(const vpx_image_t *image, int plane, const uint8_t *wanted, size_t width, size_t height)
{
  int is_same = 1;
  for (size_t row = 0; row < height; row++) {
    const uint8_t *found = image->planes[plane] + (ptrdiff_t)row * image->stride[plane];
    is_same &= memcmp(found, wanted + row * width, width) == 0;
    /* A program may read a row up to its stride, and some bytes after the last one. */
    volatile uint8_t last = found[image->stride[plane] - 1 + (row + 1 == height ? 32 : 0)];
    (void)last;
  }
  return is_same;
}

static int same_picture(const vpx_image_t *image, vp8_decoder *decoder)
{
  uint32_t width, height;
  struct planes planes;
  if (vp8_decoder_size(decoder, &width, &height) != VP8_OK || width != image->d_w || height != image->d_h) return 0;
  if (!planes_new(&planes, width, height)) abort();
  vp8_status status = vp8_decoder_copy(decoder, planes.y, planes.luma_len, width, planes.u, planes.chroma_len,
                                       planes.chroma_stride, planes.v, planes.chroma_len, planes.chroma_stride);
  size_t half = planes.chroma_stride, half_height = ((size_t)height + 1) / 2;
  int is_same = status == VP8_OK && same_rows(image, VPX_PLANE_Y, planes.y, width, height) &&
                same_rows(image, VPX_PLANE_U, planes.u, half, half_height) &&
                same_rows(image, VPX_PLANE_V, planes.v, half, half_height);
  free(planes.y);
  return is_same;
}

/* The detail of an error is "vp8: " and the status's name. */
static int is_detail_of(const char *detail, vp8_status status)
{
  char wanted[64] = "vp8: ";
  vp8_status_name(status, (uint8_t *)wanted + 5, sizeof wanted - 6);
  return detail && strcmp(detail, wanted) == 0;
}

static vpx_codec_err_t error_wanted(vp8_status status, int had_picture)
{
  if (status == VP8_OK || status == VP8_HIDDEN) return VPX_CODEC_OK;
  if (status == VP8_VERSION || status == VP8_START_CODE) return VPX_CODEC_UNSUP_BITSTREAM;
  if (status == VP8_TOO_LARGE) return VPX_CODEC_UNSUP_FEATURE;
  if (!had_picture && (status == VP8_TRUNCATED || status == VP8_NO_REFERENCE)) return VPX_CODEC_UNSUP_BITSTREAM;
  return VPX_CODEC_CORRUPT_FRAME;
}

/* A stream that is decoded: whether a packet had a picture; whether the last packet was refused or is corrupt, and
 * whether any was from the last key frame on. */
struct course {
  int had_picture, is_damaged, was_damaged;
};

static void check_controls(vpx_codec_ctx_t *codec, unsigned long n, int is_decoded, const vp8_frame *frame,
                           const struct course *course)
{
  int number = -1;
  int updates = (frame->refreshes_last ? VP8_LAST_FRAME : 0) | (frame->refreshes_golden ? VP8_GOLD_FRAME : 0) |
                (frame->refreshes_altref ? VP8_ALTR_FRAME : 0);
  vpx_codec_err_t wanted = is_decoded ? VPX_CODEC_OK : VPX_CODEC_CORRUPT_FRAME;
  expect(vpx_codec_control(codec, VPXD_GET_LAST_QUANTIZER, &number) == wanted, n, "quantiser: status");
  expect(!is_decoded || number == (int)frame->quantiser, n, "another quantiser");
  expect(vpx_codec_control(codec, VP8D_GET_LAST_REF_UPDATES, &number) == wanted, n, "updates: status");
  expect(!is_decoded || number == updates, n, "other updates");
  if (!course->had_picture) return;
  expect(vpx_codec_control(codec, VP8D_GET_FRAME_CORRUPTED, &number) == VPX_CODEC_OK, n, "corrupted: status");
  expect(number >= course->is_damaged && number <= course->was_damaged, n, "another flag of corruption");
}

/* The picture that the packet shows is given once, and is the program's to turn over or to release. */
static void check_picture(vpx_codec_ctx_t *codec, unsigned long n, vp8_decoder *decoder, int is_shown, void *user)
{
  vpx_codec_iter_t iterator = NULL, again = NULL;
  vpx_image_t *image = vpx_codec_get_frame(codec, &iterator);
  expect(!image == !is_shown, n, "a picture is shown by one only");
  if (image && is_shown) {
    pictures++;
    expect(same_picture(image, decoder), n, "another picture");
    expect(image->user_priv == user, n, "another user pointer");
    expect(image->stride[VPX_PLANE_Y] % 32 == 0 && image->stride[VPX_PLANE_U] % 32 == 0, n, "a stride without slack");
    vpx_img_flip(image);
    vpx_img_free(image);
    expect(!vpx_codec_get_frame(codec, &iterator), n, "a second picture");
  }
  expect(!vpx_codec_get_frame(codec, &again), n, "the picture is given again");
}

static void check_packet(vpx_codec_ctx_t *codec, vp8_decoder *decoder, unsigned long n, const uint8_t *packet,
                         size_t len, int handover, struct course *course)
{
  vpx_codec_stream_info_t info = { .sz = sizeof info };
  vp8_frame frame = { .key = 0 };
  void *user = (void *)(uintptr_t)(n + 1);
  vp8_status status = vp8_decoder_decode_keeping(decoder, packet, len);
  vp8_status facts = vp8_decoder_frame(decoder, &frame);
  vpx_codec_err_t error = hand_over(codec, handover, packet, len, user);
  int is_decoded = status == VP8_OK || status == VP8_HIDDEN;
  uint32_t is_corrupt = 0;
  packets++;
  expect(facts == (is_decoded ? VP8_OK : VP8_NO_PICTURE), n, "facts of another packet");
  expect(vp8_decoder_corrupt(decoder, &is_corrupt) == VP8_OK, n, "no word on corruption");
  expect(is_corrupt == frame.corrupt, n, "two words on corruption");
  refused += !is_decoded;
  expect(error == error_wanted(status, course->had_picture), n, "another error");
  expect(is_decoded || is_detail_of(vpx_codec_error_detail(codec), status), n, "another error detail");
  course->had_picture |= is_decoded;
  course->is_damaged = !is_decoded || is_corrupt;
  course->was_damaged = course->is_damaged || (course->was_damaged && !frame.key);
  check_controls(codec, n, is_decoded, &frame, course);
  check_picture(codec, n, decoder, status == VP8_OK, user);
  (void)vpx_codec_peek_stream_info(vpx_codec_vp8_dx(), packet, (unsigned int)len, &info);
  expect(!info.is_kf || status != VP8_OK || (info.w > 0 && info.h > 0), n, "no size of a key packet");
  expect(vpx_codec_get_stream_info(codec, &info) == VPX_CODEC_OK, n, "no stream information");
}

static void open_codec(vpx_codec_ctx_t *codec, int handover)
{
  vpx_codec_flags_t flags = handover == IN_FRAGMENTS ? VPX_CODEC_USE_INPUT_FRAGMENTS : VPX_CODEC_USE_POSTPROC;
  vpx_decrypt_init decryptor = { decrypt, &cipher };
  vpx_codec_dec_cfg_t configuration = { 4, 0, 0 };
  vp8_postproc_cfg_t postprocessing = { VP8_DEBLOCK, 4, 0 };
  if (vpx_codec_dec_init(codec, vpx_codec_vp8_dx(), &configuration, flags)) abort();
  expect(vpx_codec_control(codec, VP8_SET_POSTPROC, &postprocessing) == VPX_CODEC_OK, 0, "postprocessing is refused");
  if (handover == ENCRYPTED)
    expect(vpx_codec_control(codec, VPXD_SET_DECRYPTOR, &decryptor) == VPX_CODEC_OK, 0, "a decryptor is refused");
}

/* Packets of no bytes are left out: vpx_codec_decode refuses them before it calls a codec. */
static void check_file(const uint8_t *file, size_t file_len, int handover)
{
  vpx_codec_ctx_t codec;
  vp8_decoder decoder = VP8_INIT;
  size_t at = 32, len;
  struct course course = { 0, 0, 0 };
  const uint8_t *packet;
  if (vp8_decoder_new(&decoder, MAX_PIXELS) != VP8_OK) abort();
  open_codec(&codec, handover);
  for (unsigned long n = 0; (packet = next_packet(file, file_len, &at, &len)); n++) {
    if (!len) continue;
    uint8_t *copy = copy_of(packet, len);
    size_t damaged_len = variant ? damage(copy, len) : len;
    uint8_t *exact = copy_of(copy, damaged_len);
    check_packet(&codec, &decoder, n, exact, damaged_len, handover, &course);
    free(copy);
    free(exact);
  }
  vpx_codec_iter_t iterator = NULL;
  vpx_codec_err_t flushed = vpx_codec_decode(&codec, NULL, 0, NULL, 0);
  expect(flushed == (handover == IN_FRAGMENTS ? VPX_CODEC_INVALID_PARAM : VPX_CODEC_OK), 0, "a flush is refused");
  expect(!vpx_codec_get_frame(&codec, &iterator), 0, "a flush shows a picture");
  vpx_codec_err_t refused = vpx_codec_decode(&codec, file, 0, NULL, 0);
  expect(refused == VPX_CODEC_INVALID_PARAM, 0, "a pointer with length 0 is accepted");
  expect(vpx_codec_destroy(&codec) == VPX_CODEC_OK, 0, "destroy fails");
  vp8_decoder_free(&decoder);
}

/* What a program may ask before it has a packet. */
static void check_interface(void)
{
  vpx_codec_ctx_t codec;
  vp8_status unused = VP8_OK;
  vpx_ref_frame_t reference;
  memset(&reference, 0, sizeof reference);
  expect(strncmp(vpx_codec_iface_name(vpx_codec_vp8_dx()), "WebM Project VP8", 16) == 0, 0, "the codec's name");
  expect(strstr(vpx_codec_iface_name(vpx_codec_vp8_dx()), "libvp8") != NULL, 0, "the decoder is libvpx's own");
  expect(vpx_codec_dec_init(&codec, vpx_codec_vp8_dx(), NULL, VPX_CODEC_USE_ERROR_CONCEALMENT) == VPX_CODEC_INCAPABLE,
         0, "error concealment is accepted");
  if (vpx_codec_dec_init(&codec, vpx_codec_vp8_dx(), NULL, 0)) abort();
  expect(vpx_codec_control(&codec, VP8_COPY_REFERENCE, &reference) == VPX_CODEC_INCAPABLE, 0, "a reference is copied");
  expect(vpx_codec_control(&codec, VP8D_GET_FRAME_CORRUPTED, (int *)&unused) == VPX_CODEC_INVALID_PARAM, 0,
         "a flag without a packet");
  expect(vpx_codec_destroy(&codec) == VPX_CODEC_OK, 0, "destroy fails");
}

int main(int count, char **words)
{
  if (count < 3) return fprintf(stderr, "check_packets VARIANTS FILE.ivf..\n"), 2;
  setenv("VP8_VPX_MAX_PIXELS", MAX_PIXELS_TEXT, 1);
  path = "interface";
  check_interface();
  for (int n = 2; n < count; n++) {
    size_t len;
    path = words[n];
    uint8_t *file = read_file(path, &len);
    if (!file) return perror(path), 2;
    random_state = (uint32_t)n;
    for (variant = 0; variant <= atoi(words[1]); variant++)
      for (int handover = 0; handover < (variant ? 1 : HANDOVERS); handover++)
        check_file(file, len, variant ? variant % HANDOVERS : handover);
    free(file);
  }
  printf("%lu packets, %lu pictures, %lu refused, %lu differences\n", packets, pictures, refused, differences);
  return differences != 0;
}
