/* The table of functions through which libvpx's vpx_codec_* calls reach a codec, and the start of a codec's private
 * state.
 *
 * Not proved: the whole file. libvpx-dev does not install this layout, so it is declared here. VPX_TABLE_ABI is the
 * layout's number in libvpx 1.12; libvpx refuses a table with another number by VPX_CODEC_ABI_MISMATCH.
 */
#ifndef VPX_TABLE_H
#define VPX_TABLE_H

#include <stdarg.h>
#include <stdint.h>

#include <vpx/vpx_codec.h>
#include <vpx/vpx_decoder.h>

#define VPX_TABLE_ABI 5

#define EXPORT __attribute__((visibility("default")))

/* The start of a codec's private state. libvpx reads `error_detail`. It writes to the reserved bytes only for a codec
 * that offers put_frame, put_slice or encoding. */
struct vpx_codec_priv {
  const char *error_detail;
  vpx_codec_flags_t init_flags;
  char reserved[512];
};

/* A codec's own private state; it starts with a vpx_codec_priv. */
struct vpx_codec_alg_priv;
typedef struct vpx_codec_alg_priv vpx_state;

/* A function for one number of vpx_codec_control. A list ends with a null function. */
struct vpx_control {
  int id;
  vpx_codec_err_t (*run)(vpx_state *, va_list);
};

struct vpx_codec_iface {
  const char *name;
  int abi;
  vpx_codec_caps_t capabilities;
  vpx_codec_err_t (*init)(vpx_codec_ctx_t *, void *multi_resolution);
  vpx_codec_err_t (*destroy)(vpx_state *);
  const struct vpx_control *controls;
  vpx_codec_err_t (*peek_stream_info)(const uint8_t *, unsigned int, vpx_codec_stream_info_t *);
  vpx_codec_err_t (*get_stream_info)(vpx_state *, vpx_codec_stream_info_t *);
  vpx_codec_err_t (*decode)(vpx_state *, const uint8_t *, unsigned int, void *user, long deadline);
  vpx_image_t *(*get_frame)(vpx_state *, vpx_codec_iter_t *);
  void (*set_frame_buffers)(void);
  int encoder_configurations;
  void (*encoder[7])(void);
};

_Static_assert(sizeof(void *) != 8 || sizeof(struct vpx_codec_iface) == 152, "libvpx's table has another size");

/* The table that vpx_codec_vp8_dx() returns. Some programs read it by this name. */
extern const struct vpx_codec_iface vpx_codec_vp8_dx_algo;

#endif
