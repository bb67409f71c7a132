/* VP8 decoding for programs that use libvpx, by libvp8.
 *
 * Not proved: the whole file. What a packet decodes to, and what its header says, is proved (libvp8). Unproved are the
 * translation of statuses (`error_of_status`), the image that a program gets (`prepare_image`, `copy_picture`),
 * fragments and decryption (`keep_fragment`, `decrypt`), and controls.
 *
 * libvpx's vpx_codec_* functions check their arguments, keep the status in the context, and call a codec through a
 * table of functions. This file provides such a table for VP8 decoding under libvpx's two names for it,
 * vpx_codec_vp8_dx() and vpx_codec_vp8_dx_algo. Loaded ahead of libvpx, it replaces the VP8 decoder only. With
 * vpx_calls.c and -DVP8_VPX_ALONE it replaces libvpx in a program that only decodes VP8. scripts/build_shim builds
 * both.
 *
 * Environment variables, read when a decoder is opened; a program with raised privileges ignores them:
 *   VP8_VPX_MAX_PIXELS=N  refuses pictures of more than N pixels, 1 to 268402689; default: 16777216
 *   VP8_VPX_TRACE=1       prints a line on standard error for each decoder that is opened or destroyed
 *   VP8_VPX_OFF=1         uses libvpx's own decoder
 */
#define _GNU_SOURCE
#include <dlfcn.h>
#include <limits.h>
#include <stdio.h>
#include <stdlib.h>
#include <string.h>
#include <unistd.h>

#include <vpx/vp8dx.h>

#include "vp8.h"
#include "vpx_table.h"

/* libvpx's own tests recognise a VP8 decoder by the first three words. */
#define CODEC_NAME "WebM Project VP8 Decoder, provided by libvp8"

#define DEFAULT_MAX_PIXELS 16777216
#define GREATEST_MAX_PIXELS 268402689

#define MOST_FRAGMENTS 9 /* the first partition and eight token partitions */

/* Some programs read whole vectors past the last pixel, or longer rows than the picture's. So a picture is lent if the
 * rows of its planes are whole vectors, and else copied, with bytes after the last plane. */
#define VECTOR 64

struct vpx_codec_alg_priv {
  struct vpx_codec_priv base;
  vpx_codec_dec_cfg_t configuration;
  vp8_decoder decoder;
  vpx_codec_stream_info_t stream_info;
  int has_decoded;       /* a packet was decoded before */
  int has_picture;       /* the last packet shows a picture that was not given yet */
  int has_frame;         /* the last packet was decoded, and `frame` is its */
  int is_corrupt;        /* the frame that was decoded last is damaged, or a packet after it was refused */
  int is_last_corrupt;   /* the last frame, from which others are predicted, is */
  vp8_frame frame;
  vp8_lent_picture lent; /* the last packet's picture, in the decoder's memory until the next packet */
  void *user;            /* the last decoded packet's user pointer */
  vpx_image_t image;
  uint8_t *image_memory;
  size_t image_capacity;
  uint8_t *fragments;    /* the fragments of the next packet, joined */
  size_t fragments_len;
  int fragment_count;
  vpx_decrypt_cb decrypt;
  void *decrypt_state;
  char error_detail[64];
  int traces;
  struct {
    unsigned long packets, shown, hidden, refused, flushes, pictures;
  } counts;
};

/* ---- the environment */

static int is_set(const char *name)
{
  const char *value = secure_getenv(name);
  return value && *value && strcmp(value, "0") != 0;
}

/* A value that is not a number in the range is ignored. */
static uint32_t max_pixels(void)
{
  const char *text = secure_getenv("VP8_VPX_MAX_PIXELS");
  if (!text || *text < '0' || *text > '9') return DEFAULT_MAX_PIXELS;
  char *end;
  unsigned long number = strtoul(text, &end, 10);
  return *end || number < 1 || number > GREATEST_MAX_PIXELS ? DEFAULT_MAX_PIXELS : (uint32_t)number;
}

/* libvpx's own table, or NULL if it is not found. The name may be hidden from RTLD_NEXT: a program that opens libvpx by
 * dlopen keeps its symbols to itself. */
static const struct vpx_codec_iface *libvpx_table(void)
{
#ifndef VP8_VPX_ALONE
  static const char symbol[] = "vpx_codec_vp8_dx_algo";
  const struct vpx_codec_iface *table = dlsym(RTLD_NEXT, symbol);
#ifdef LIBVPX_PATH
  if (!table) {
    void *library = dlopen(LIBVPX_PATH, RTLD_LAZY | RTLD_NOLOAD);
    if (library) {
      table = dlsym(library, symbol);
      dlclose(library);
    }
  }
#endif
  return table == &vpx_codec_vp8_dx_algo ? NULL : table;
#else
  return NULL;
#endif
}

/* ---- opening and closing */

static vpx_codec_err_t init(vpx_codec_ctx_t *context, void *multi_resolution)
{
  const struct vpx_codec_iface *original = is_set("VP8_VPX_OFF") ? libvpx_table() : NULL;
  if (original) {
    context->iface = original;
    context->name = original->name;
    return original->init(context, multi_resolution);
  }
  vpx_state *state = calloc(1, sizeof *state);
  if (!state) return VPX_CODEC_MEM_ERROR;
  if (vp8_decoder_new(&state->decoder, max_pixels()) != VP8_OK) {
    free(state);
    return VPX_CODEC_MEM_ERROR;
  }
  state->base.init_flags = context->init_flags;
  state->stream_info.sz = sizeof state->stream_info;
  context->priv = &state->base;
  if (context->config.dec) {
    state->configuration = *context->config.dec;
    context->config.dec = &state->configuration;
  }
  state->traces = is_set("VP8_VPX_TRACE");
  if (state->traces) fprintf(stderr, "libvp8-vpx[%d]: decoder opened\n", (int)getpid());
  return VPX_CODEC_OK;
}

static vpx_codec_err_t destroy(vpx_state *state)
{
  if (state->traces)
    fprintf(stderr,
            "libvp8-vpx[%d]: decoder destroyed: %lu packets, %lu shown, %lu hidden, %lu refused; %lu flushes, "
            "%lu pictures given\n",
            (int)getpid(), state->counts.packets, state->counts.shown, state->counts.hidden, state->counts.refused,
            state->counts.flushes, state->counts.pictures);
  vp8_decoder_free(&state->decoder);
  free(state->image_memory);
  free(state->fragments);
  free(state);
  return VPX_CODEC_OK;
}

/* ---- sizes before decoding */

/* As libvpx does it, an inter packet has no stream information, and a size of 0 is corrupt. */
static vpx_codec_err_t peek_stream_info(const uint8_t *data, unsigned int len, vpx_codec_stream_info_t *info)
{
  vp8_packet_info packet = { 0, 0, 0, 0 };
  vp8_status status = vp8_peek(data, len, &packet);
  info->is_kf = packet.key || status == VP8_START_CODE || status == VP8_SIZE;
  if (status == VP8_SIZE) {
    info->w = info->h = 0;
    return VPX_CODEC_CORRUPT_FRAME;
  }
  if (!packet.key) return VPX_CODEC_UNSUP_BITSTREAM;
  info->w = packet.width;
  info->h = packet.height;
  return VPX_CODEC_OK;
}

static vpx_codec_err_t get_stream_info(vpx_state *state, vpx_codec_stream_info_t *info)
{
  *info = state->stream_info;
  return VPX_CODEC_OK;
}

/* ---- images */

static size_t round_up(size_t number, size_t multiple)
{
  return (number + multiple - 1) / multiple * multiple;
}

/* Whether the rows of the lent planes are whole vectors. Those of Y are twice as long as those of U and V. */
static int is_in_vectors(const vp8_lent_picture *lent)
{
  return lent->u.stride % VECTOR == 0;
}

/* Makes the image one of the lent picture's size, with these planes. All fields are set for each picture, since a
 * program may have changed them (vpx_img_flip). They say that neither the image nor its memory is to be freed, since
 * some programs call vpx_img_free on each image. */
static void set_image(vpx_state *state, uint8_t *y, uint8_t *u, uint8_t *v, size_t stride, size_t chroma_stride)
{
  vpx_image_t *image = &state->image;
  memset(image, 0, sizeof *image);
  image->fmt = VPX_IMG_FMT_I420;
  image->bit_depth = 8;
  image->bps = 12;
  image->w = (unsigned)stride;
  image->h = (unsigned)round_up(state->lent.height, 16);
  image->d_w = image->r_w = state->lent.width;
  image->d_h = image->r_h = state->lent.height;
  image->x_chroma_shift = image->y_chroma_shift = 1;
  image->planes[VPX_PLANE_Y] = image->img_data = y;
  image->planes[VPX_PLANE_U] = u;
  image->planes[VPX_PLANE_V] = v;
  image->stride[VPX_PLANE_Y] = image->stride[VPX_PLANE_ALPHA] = (int)stride;
  image->stride[VPX_PLANE_U] = image->stride[VPX_PLANE_V] = (int)chroma_stride;
}

/* Makes the image one for a copy of the lent picture; 0 if memory is refused. Strides are multiples of 32 bytes. */
static int lay_out_image(vpx_state *state)
{
  size_t width = state->lent.width, rows = round_up(state->lent.height, 16);
  size_t stride = round_up(width, 32), chroma_stride = round_up((width + 1) / 2, 32);
  size_t luma_len = stride * rows, chroma_len = chroma_stride * (rows / 2);
  size_t capacity = luma_len + 2 * chroma_len + VECTOR;
  if (capacity > state->image_capacity) {
    void *memory;
    if (posix_memalign(&memory, VECTOR, capacity)) return 0;
    memset(memory, 0, capacity);
    free(state->image_memory);
    state->image_memory = memory;
    state->image_capacity = capacity;
  }
  uint8_t *y = state->image_memory, *u = y + luma_len;
  set_image(state, y, u, u + chroma_len, stride, chroma_stride);
  return 1;
}

/* Makes the image the last packet's picture, lent or to be copied; 0 if memory is refused. As in libvpx, a program only
 * reads a lent image: later frames are predicted from it. */
static int prepare_image(vpx_state *state)
{
  vp8_lent_picture *lent = &state->lent;
  if (vp8_decoder_lend(&state->decoder, lent) != VP8_OK) return 0;
  if (!is_in_vectors(lent)) return lay_out_image(state);
  set_image(state, (uint8_t *)lent->y.at, (uint8_t *)lent->u.at, (uint8_t *)lent->v.at, lent->y.stride, lent->u.stride);
  return 1;
}

static void copy_plane(const vpx_image_t *image, int plane, const vp8_lent_plane *lent, size_t width, size_t rows)
{
  const uint8_t *from = lent->at;
  uint8_t *to = image->planes[plane];
  for (size_t row = 0; row < rows; row++, from += lent->stride, to += image->stride[plane]) memcpy(to, from, width);
}

/* Copies the lent picture to the image that is laid out for it. */
static void copy_picture(vpx_state *state)
{
  const vpx_image_t *image = &state->image;
  size_t half_width = ((size_t)image->d_w + 1) / 2, half_rows = ((size_t)image->d_h + 1) / 2;
  copy_plane(image, VPX_PLANE_Y, &state->lent.y, image->d_w, image->d_h);
  copy_plane(image, VPX_PLANE_U, &state->lent.u, half_width, half_rows);
  copy_plane(image, VPX_PLANE_V, &state->lent.v, half_width, half_rows);
}

/* Gives the last packet's picture once. The image is valid until the next call of decode or destroy. */
static vpx_image_t *get_frame(vpx_state *state, vpx_codec_iter_t *iterator)
{
  if (*iterator || !state->has_picture) return NULL;
  state->has_picture = 0;
  if (!is_in_vectors(&state->lent)) copy_picture(state);
  state->counts.pictures++;
  state->image.user_priv = state->user;
  *iterator = &state->image;
  return &state->image;
}

/* ---- decoding */

static vpx_codec_err_t error_of_status(const vpx_state *state, vp8_status status)
{
  switch (status) {
    case VP8_OK:
    case VP8_HIDDEN: return VPX_CODEC_OK;
    case VP8_MEMORY: return VPX_CODEC_MEM_ERROR;
    case VP8_VERSION:
    case VP8_START_CODE: return VPX_CODEC_UNSUP_BITSTREAM;
    case VP8_TOO_LARGE: return VPX_CODEC_UNSUP_FEATURE;
    case VP8_TRUNCATED:
    case VP8_NO_REFERENCE: return state->has_decoded ? VPX_CODEC_CORRUPT_FRAME : VPX_CODEC_UNSUP_BITSTREAM;
    case VP8_CLOSED: return VPX_CODEC_ERROR;
    default: return VPX_CODEC_CORRUPT_FRAME;
  }
}

/* Counts the refused packet, and makes the status's name the error detail. What the packet had is not known: as in
 * libvpx, the last frame then counts as damaged. */
static vpx_codec_err_t refuse(vpx_state *state, vp8_status status)
{
  uint8_t name[32] = { 0 };
  vp8_status_name(status, name, sizeof name - 1);
  snprintf(state->error_detail, sizeof state->error_detail, "vp8: %s", (const char *)name);
  state->base.error_detail = state->error_detail;
  state->is_corrupt = state->is_last_corrupt = 1;
  state->counts.refused++;
  return error_of_status(state, status);
}

/* Reads the facts of the frame that was decoded, and judges whether it is damaged. As in libvpx it is if a partition
 * was read past its end, or if it is predicted from a damaged frame; libvpx asks each macroblock for its reference, and
 * this the last frame alone. */
static void judge_frame(vpx_state *state)
{
  state->has_frame = vp8_decoder_frame(&state->decoder, &state->frame) == VP8_OK;
  state->is_corrupt = state->frame.corrupt || (state->is_last_corrupt && !state->frame.key);
  if (state->frame.refreshes_last) state->is_last_corrupt = state->is_corrupt;
}

/* Keeps a fragment of the next packet: its header and first partition, or token partitions, in order. */
static vpx_codec_err_t keep_fragment(vpx_state *state, const uint8_t *data, unsigned int len)
{
  int fits = state->fragment_count < MOST_FRAGMENTS && len <= INT_MAX - state->fragments_len;
  uint8_t *joined = fits ? realloc(state->fragments, state->fragments_len + len) : NULL;
  if (!joined) {
    state->fragments_len = 0;
    state->fragment_count = 0;
    return fits ? VPX_CODEC_MEM_ERROR : VPX_CODEC_INVALID_PARAM;
  }
  memcpy(joined + state->fragments_len, data, len);
  state->fragments = joined;
  state->fragments_len += len;
  state->fragment_count++;
  return VPX_CODEC_OK;
}

static vpx_codec_err_t decode_packet(vpx_state *state, const uint8_t *packet, size_t len, void *user)
{
  /* The result is in `stream_info`, which keeps the last size if the packet has none. */
  (void)peek_stream_info(packet, (unsigned int)len, &state->stream_info);
  vp8_status status = vp8_decoder_decode_keeping(&state->decoder, packet, len);
  if (status != VP8_OK && status != VP8_HIDDEN) return refuse(state, status);
  judge_frame(state);
  state->has_decoded = 1;
  state->user = user;
  if (status == VP8_HIDDEN) {
    state->counts.hidden++;
    return VPX_CODEC_OK;
  }
  if (!prepare_image(state)) return refuse(state, VP8_MEMORY);
  state->has_picture = 1;
  state->counts.shown++;
  return VPX_CODEC_OK;
}

static vpx_codec_err_t decrypt_and_decode(vpx_state *state, const uint8_t *packet, size_t len, void *user)
{
  uint8_t *clear = malloc(len);
  if (!clear) return refuse(state, VP8_MEMORY);
  state->decrypt(state->decrypt_state, packet, clear, (int)len);
  vpx_codec_err_t error = decode_packet(state, clear, len, user);
  free(clear);
  return error;
}

static vpx_codec_err_t decode(vpx_state *state, const uint8_t *data, unsigned int len, void *user, long deadline)
{
  (void)deadline;
  if (state->base.init_flags & VPX_CODEC_USE_INPUT_FRAGMENTS) {
    if (len) return keep_fragment(state, data, len);
    if (!state->fragments_len) return VPX_CODEC_INVALID_PARAM;
    data = state->fragments;
    len = (unsigned int)state->fragments_len;
    state->fragments_len = 0;
    state->fragment_count = 0;
  }
  /* No bytes: a flush, which shows nothing. libvp8 would repeat the last picture for a packet of no bytes. */
  if (!len) {
    state->counts.flushes++;
    return VPX_CODEC_OK;
  }
  if (len > INT_MAX) return VPX_CODEC_INVALID_PARAM;
  state->counts.packets++;
  state->has_picture = 0;
  state->has_frame = 0;
  state->base.error_detail = NULL;
  return state->decrypt ? decrypt_and_decode(state, data, len, user) : decode_packet(state, data, len, user);
}

/* ---- controls. libvpx returns VPX_CODEC_INCAPABLE for those that are not in the list: VP8_SET_REFERENCE,
 * VP8_COPY_REFERENCE, VP8D_GET_LAST_REF_USED. */

/* Gives a fact of the last frame. */
static vpx_codec_err_t give_fact(vpx_state *state, va_list arguments, int (*fact)(const vp8_frame *))
{
  int *out = va_arg(arguments, int *);
  if (!out) return VPX_CODEC_INVALID_PARAM;
  if (!state->has_frame) return VPX_CODEC_CORRUPT_FRAME;
  *out = fact(&state->frame);
  return VPX_CODEC_OK;
}

static int updates_of(const vp8_frame *frame)
{
  return (frame->refreshes_last ? VP8_LAST_FRAME : 0) | (frame->refreshes_golden ? VP8_GOLD_FRAME : 0) |
         (frame->refreshes_altref ? VP8_ALTR_FRAME : 0);
}

static int quantiser_of(const vp8_frame *frame) { return (int)frame->quantiser; }

static vpx_codec_err_t get_last_updates(vpx_state *state, va_list arguments)
{
  return give_fact(state, arguments, updates_of);
}

static vpx_codec_err_t get_last_quantiser(vpx_state *state, va_list arguments)
{
  return give_fact(state, arguments, quantiser_of);
}

/* Whether the frame that was decoded last is damaged, or a packet after it was refused. */
static vpx_codec_err_t get_corrupted(vpx_state *state, va_list arguments)
{
  int *out = va_arg(arguments, int *);
  if (!out || !state->has_decoded) return VPX_CODEC_INVALID_PARAM;
  *out = state->is_corrupt;
  return VPX_CODEC_OK;
}

static vpx_codec_err_t set_decryptor(vpx_state *state, va_list arguments)
{
  const vpx_decrypt_init *decryptor = va_arg(arguments, vpx_decrypt_init *);
  state->decrypt = decryptor ? decryptor->decrypt_cb : NULL;
  state->decrypt_state = decryptor ? decryptor->decrypt_state : NULL;
  return VPX_CODEC_OK;
}

/* Accepted without effect, as is VPX_CODEC_USE_POSTPROC: libwebrtc has no VP8 decoder at all if it is refused. */
static vpx_codec_err_t set_postprocessing(vpx_state *state, va_list arguments)
{
  (void)state;
  return va_arg(arguments, void *) ? VPX_CODEC_OK : VPX_CODEC_INVALID_PARAM;
}

static const struct vpx_control controls[] = {
  { VP8_SET_POSTPROC, set_postprocessing },
  { VP8D_GET_LAST_REF_UPDATES, get_last_updates },
  { VP8D_GET_FRAME_CORRUPTED, get_corrupted },
  { VPXD_GET_LAST_QUANTIZER, get_last_quantiser },
  { VPXD_SET_DECRYPTOR, set_decryptor },
  { -1, NULL },
};

EXPORT const struct vpx_codec_iface vpx_codec_vp8_dx_algo = {
  .name = CODEC_NAME,
  .abi = VPX_TABLE_ABI,
  .capabilities = VPX_CODEC_CAP_DECODER | VPX_CODEC_CAP_POSTPROC | VPX_CODEC_CAP_INPUT_FRAGMENTS,
  .init = init,
  .destroy = destroy,
  .controls = controls,
  .peek_stream_info = peek_stream_info,
  .get_stream_info = get_stream_info,
  .decode = decode,
  .get_frame = get_frame,
};

/* A libvpx whose table has another layout keeps its own decoder. */
EXPORT vpx_codec_iface_t *vpx_codec_vp8_dx(void)
{
  const struct vpx_codec_iface *original = libvpx_table();
  if (original && (original->abi != VPX_TABLE_ABI || is_set("VP8_VPX_OFF"))) return original;
  return &vpx_codec_vp8_dx_algo;
}
