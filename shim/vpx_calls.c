/* The functions of <vpx/vpx_codec.h>, <vpx/vpx_decoder.h> and <vpx/vpx_image.h> for a program that only decodes VP8.
 * With vp8_vpx.c they replace libvpx in such a program. Written from the comments of those headers.
 *
 * Not proved: the whole file. `make_image`, vpx_img_set_rect and vpx_img_flip compute addresses of a program's own
 * images; the other functions check arguments and call the table of vp8_vpx.c.
 */
#define _POSIX_C_SOURCE 200809L
#include <stdarg.h>
#include <stddef.h>
#include <stdlib.h>
#include <string.h>

#include <vpx/vp8dx.h>
#include <vpx/vpx_image.h>

#include "vpx_table.h"

/* The version of libvpx whose headers are used; scripts/build_shim defines it. */
#ifndef LIBVPX_VERSION
#define LIBVPX_VERSION "0.0.0"
#endif

static vpx_codec_err_t keep_error(vpx_codec_ctx_t *context, vpx_codec_err_t error)
{
  return context ? (context->err = error) : error;
}

static vpx_state *state_of(vpx_codec_ctx_t *context)
{
  return context->iface ? (vpx_state *)context->priv : NULL;
}

/* ---- what the library is */

EXPORT int vpx_codec_version(void)
{
  int version = 0;
  const char *text = LIBVPX_VERSION;
  for (int part = 0; part < 3; part++) {
    char *end;
    version = version << 8 | (int)(strtoul(text, &end, 10) & 255);
    text = *end == '.' ? end + 1 : end;
  }
  return version;
}

EXPORT const char *vpx_codec_version_str(void) { return "v" LIBVPX_VERSION; }

EXPORT const char *vpx_codec_version_extra_str(void) { return ""; }

EXPORT const char *vpx_codec_build_config(void) { return "VP8 decoder only, provided by libvp8"; }

EXPORT const char *vpx_codec_iface_name(vpx_codec_iface_t *iface) { return iface ? iface->name : "no interface"; }

EXPORT vpx_codec_caps_t vpx_codec_get_caps(vpx_codec_iface_t *iface) { return iface ? iface->capabilities : 0; }

/* ---- errors */

EXPORT const char *vpx_codec_err_to_string(vpx_codec_err_t error)
{
  switch (error) {
    case VPX_CODEC_OK: return "Success";
    case VPX_CODEC_ERROR: return "Unspecified error";
    case VPX_CODEC_MEM_ERROR: return "Out of memory";
    case VPX_CODEC_ABI_MISMATCH: return "ABI version mismatch";
    case VPX_CODEC_INCAPABLE: return "Feature not supported by the codec";
    case VPX_CODEC_UNSUP_BITSTREAM: return "Bitstream not supported";
    case VPX_CODEC_UNSUP_FEATURE: return "Bitstream feature not supported";
    case VPX_CODEC_CORRUPT_FRAME: return "Corrupt frame";
    case VPX_CODEC_INVALID_PARAM: return "Invalid argument";
    case VPX_CODEC_LIST_END: return "End of list";
  }
  return "Unknown error";
}

EXPORT const char *vpx_codec_error(vpx_codec_ctx_t *context)
{
  return vpx_codec_err_to_string(context ? context->err : VPX_CODEC_INVALID_PARAM);
}

EXPORT const char *vpx_codec_error_detail(vpx_codec_ctx_t *context)
{
  if (!context || !context->err) return NULL;
  return context->priv ? context->priv->error_detail : context->err_detail;
}

/* ---- decoding */

static int offers_flags(vpx_codec_iface_t *iface, vpx_codec_flags_t flags)
{
  vpx_codec_caps_t capabilities = iface->capabilities;
  if (!(capabilities & VPX_CODEC_CAP_DECODER)) return 0;
  if ((flags & VPX_CODEC_USE_POSTPROC) && !(capabilities & VPX_CODEC_CAP_POSTPROC)) return 0;
  if ((flags & VPX_CODEC_USE_ERROR_CONCEALMENT) && !(capabilities & VPX_CODEC_CAP_ERROR_CONCEALMENT)) return 0;
  return !(flags & VPX_CODEC_USE_INPUT_FRAGMENTS) || (capabilities & VPX_CODEC_CAP_INPUT_FRAGMENTS);
}

EXPORT vpx_codec_err_t vpx_codec_dec_init_ver(vpx_codec_ctx_t *context, vpx_codec_iface_t *iface,
                                              const vpx_codec_dec_cfg_t *configuration, vpx_codec_flags_t flags,
                                              int version)
{
  if (version != VPX_DECODER_ABI_VERSION) return keep_error(context, VPX_CODEC_ABI_MISMATCH);
  if (!context || !iface) return keep_error(context, VPX_CODEC_INVALID_PARAM);
  if (!offers_flags(iface, flags)) return keep_error(context, VPX_CODEC_INCAPABLE);
  memset(context, 0, sizeof *context);
  context->iface = iface;
  context->name = iface->name;
  context->init_flags = flags;
  context->config.dec = configuration;
  vpx_codec_err_t error = iface->init(context, NULL);
  if (error) {
    context->iface = NULL;
    context->name = NULL;
  }
  return keep_error(context, error);
}

EXPORT vpx_codec_err_t vpx_codec_destroy(vpx_codec_ctx_t *context)
{
  if (!context) return VPX_CODEC_INVALID_PARAM;
  if (!state_of(context)) return keep_error(context, VPX_CODEC_ERROR);
  context->iface->destroy(state_of(context));
  context->iface = NULL;
  context->name = NULL;
  context->priv = NULL;
  return keep_error(context, VPX_CODEC_OK);
}

EXPORT vpx_codec_err_t vpx_codec_peek_stream_info(vpx_codec_iface_t *iface, const uint8_t *data, unsigned int len,
                                                  vpx_codec_stream_info_t *info)
{
  if (!iface || !data || !len || !info || info->sz < sizeof *info) return VPX_CODEC_INVALID_PARAM;
  info->w = info->h = 0;
  return iface->peek_stream_info(data, len, info);
}

EXPORT vpx_codec_err_t vpx_codec_get_stream_info(vpx_codec_ctx_t *context, vpx_codec_stream_info_t *info)
{
  if (!context || !info || info->sz < sizeof *info) return keep_error(context, VPX_CODEC_INVALID_PARAM);
  if (!state_of(context)) return keep_error(context, VPX_CODEC_ERROR);
  return keep_error(context, context->iface->get_stream_info(state_of(context), info));
}

EXPORT vpx_codec_err_t vpx_codec_decode(vpx_codec_ctx_t *context, const uint8_t *data, unsigned int len, void *user,
                                        long deadline)
{
  if (!context || !data != !len) return keep_error(context, VPX_CODEC_INVALID_PARAM);
  if (!state_of(context)) return keep_error(context, VPX_CODEC_ERROR);
  return keep_error(context, context->iface->decode(state_of(context), data, len, user, deadline));
}

EXPORT vpx_image_t *vpx_codec_get_frame(vpx_codec_ctx_t *context, vpx_codec_iter_t *iterator)
{
  if (!context || !iterator || !state_of(context)) return NULL;
  return context->iface->get_frame(state_of(context), iterator);
}

EXPORT vpx_codec_err_t vpx_codec_control_(vpx_codec_ctx_t *context, int id, ...)
{
  if (!context || !id) return keep_error(context, VPX_CODEC_INVALID_PARAM);
  if (!state_of(context)) return keep_error(context, VPX_CODEC_ERROR);
  const struct vpx_control *control = context->iface->controls;
  while (control->run && control->id != id) control++;
  if (!control->run) return keep_error(context, VPX_CODEC_INCAPABLE);
  va_list arguments;
  va_start(arguments, id);
  vpx_codec_err_t error = control->run(state_of(context), arguments);
  va_end(arguments);
  return keep_error(context, error);
}

/* ---- callbacks and frame buffers, which no VP8 decoder offers */

static vpx_codec_err_t not_offered(vpx_codec_ctx_t *context, int is_valid)
{
  if (!context || !is_valid) return keep_error(context, VPX_CODEC_INVALID_PARAM);
  return keep_error(context, state_of(context) ? VPX_CODEC_INCAPABLE : VPX_CODEC_ERROR);
}

EXPORT vpx_codec_err_t vpx_codec_register_put_frame_cb(vpx_codec_ctx_t *context, vpx_codec_put_frame_cb_fn_t callback,
                                                       void *user)
{
  (void)user;
  return not_offered(context, callback != NULL);
}

EXPORT vpx_codec_err_t vpx_codec_register_put_slice_cb(vpx_codec_ctx_t *context, vpx_codec_put_slice_cb_fn_t callback,
                                                       void *user)
{
  (void)user;
  return not_offered(context, callback != NULL);
}

EXPORT vpx_codec_err_t vpx_codec_set_frame_buffer_functions(vpx_codec_ctx_t *context, vpx_get_frame_buffer_cb_fn_t get,
                                                            vpx_release_frame_buffer_cb_fn_t release, void *user)
{
  (void)user;
  return not_offered(context, get && release);
}

/* ---- a program's own images: I420 and YV12, 8 bits */

static size_t align_up(size_t number, size_t power_of_two)
{
  return (number + power_of_two - 1) & ~(power_of_two - 1);
}

static int is_offered(vpx_img_fmt_t format, unsigned int width, unsigned int height, unsigned int align)
{
  return (format == VPX_IMG_FMT_I420 || format == VPX_IMG_FMT_YV12) && width <= 0x08000000 && height <= 0x08000000 &&
         align <= 65536 && (align & (align - 1)) == 0;
}

/* An image in `data`, or in memory of its own if `data` is NULL. `image` is NULL for one that is allocated too. */
static vpx_image_t *make_image(vpx_image_t *image, vpx_img_fmt_t format, unsigned int width, unsigned int height,
                               unsigned int align, uint8_t *data)
{
  if (!is_offered(format, width, height, align)) return NULL;
  if (!align) align = 1;
  size_t stride = align_up(align_up(width, 2), align), rows = align_up(height, 2);
  size_t chroma_stride = data ? (stride + 1) / 2 : align_up((stride + 1) / 2, align);
  void *own_data = NULL;
  size_t own_len = stride * rows + chroma_stride * rows + 1;
  if (!data && posix_memalign(&own_data, align < 32 ? 32 : align, own_len)) return NULL;
  vpx_image_t *made = image ? image : malloc(sizeof *made);
  if (!made) {
    free(own_data);
    return NULL;
  }
  memset(made, 0, sizeof *made);
  made->self_allocd = !image;
  made->img_data = data ? data : own_data;
  made->img_data_owner = !data;
  made->fmt = format;
  made->bit_depth = 8;
  made->w = (unsigned int)stride;
  made->h = (unsigned int)rows;
  made->x_chroma_shift = made->y_chroma_shift = 1;
  made->bps = 12;
  made->stride[VPX_PLANE_Y] = made->stride[VPX_PLANE_ALPHA] = (int)stride;
  made->stride[VPX_PLANE_U] = made->stride[VPX_PLANE_V] = (int)chroma_stride;
  vpx_img_set_rect(made, 0, 0, width, height);
  return made;
}

EXPORT vpx_image_t *vpx_img_alloc(vpx_image_t *image, vpx_img_fmt_t format, unsigned int width, unsigned int height,
                                  unsigned int align)
{
  return make_image(image, format, width, height, align, NULL);
}

EXPORT vpx_image_t *vpx_img_wrap(vpx_image_t *image, vpx_img_fmt_t format, unsigned int width, unsigned int height,
                                 unsigned int align, unsigned char *data)
{
  return data ? make_image(image, format, width, height, align, data) : NULL;
}

EXPORT int vpx_img_set_rect(vpx_image_t *image, unsigned int x, unsigned int y, unsigned int width, unsigned int height)
{
  if (!image || x > image->w || width > image->w - x || y > image->h || height > image->h - y) return -1;
  size_t stride = (size_t)image->stride[VPX_PLANE_Y], luma_len = stride * image->h;
  size_t chroma_stride = (size_t)image->stride[VPX_PLANE_U], chroma_len = chroma_stride * (image->h / 2);
  size_t chroma_start = (y / 2) * chroma_stride + x / 2;
  int is_swapped = image->fmt == VPX_IMG_FMT_YV12;
  image->d_w = width;
  image->d_h = height;
  image->planes[VPX_PLANE_Y] = image->img_data + y * stride + x;
  image->planes[is_swapped ? VPX_PLANE_V : VPX_PLANE_U] = image->img_data + luma_len + chroma_start;
  image->planes[is_swapped ? VPX_PLANE_U : VPX_PLANE_V] = image->img_data + luma_len + chroma_len + chroma_start;
  return 0;
}

EXPORT void vpx_img_flip(vpx_image_t *image)
{
  if (!image || !image->d_h) return;
  for (int plane = VPX_PLANE_Y; plane <= VPX_PLANE_V; plane++) {
    ptrdiff_t rows = plane == VPX_PLANE_Y ? image->d_h : (image->d_h + 1) / 2;
    image->planes[plane] += (rows - 1) * image->stride[plane];
    image->stride[plane] = -image->stride[plane];
  }
}

EXPORT void vpx_img_free(vpx_image_t *image)
{
  if (!image) return;
  if (image->img_data && image->img_data_owner) free(image->img_data);
  if (image->self_allocd) free(image);
}
