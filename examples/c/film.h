/* All packets of an IVF file decoded, and a sum of what that gave. */
#ifndef FILM_H
#define FILM_H

#include "ivf.h"
#include "planes.h"
#include "vp8.h"

/* A file, and what decoding it gave. */
struct film {
  const uint8_t *file;
  size_t len;
  uint64_t sum;   /* over the status of each packet, and the size and the bytes of each picture */
  uint32_t shown; /* how many pictures were shown */
  int is_well;    /* 0 where memory was refused */
};

static inline uint64_t added(uint64_t sum, const uint8_t *bytes, size_t len)
{
  for (size_t i = 0; i < len; i++) sum = (sum ^ bytes[i]) * 1099511628211u;
  return sum;
}

/* Adds the picture that the last packet showed to the sum. */
static inline int add_shown(vp8_decoder *decoder, struct film *film)
{
  uint32_t size[2];
  struct planes planes;
  if (vp8_decoder_size(decoder, &size[0], &size[1]) != VP8_OK || !planes_new(&planes, size[0], size[1])) return 0;
  vp8_status status = vp8_decoder_copy(decoder, planes.y, planes.luma_len, planes.width, planes.u, planes.chroma_len,
                                       planes.chroma_stride, planes.v, planes.chroma_len, planes.chroma_stride);
  if (status == VP8_OK) {
    film->sum = added(film->sum, (const uint8_t *)size, sizeof size);
    film->sum = added(film->sum, planes.y, planes.luma_len + 2 * planes.chroma_len);
    film->shown++;
  }
  free(planes.y);
  return status == VP8_OK;
}

/* Decodes the packets of a `struct film`. It is the thread's function. */
static inline void *decode_film(void *of)
{
  struct film *film = of;
  size_t at = 32, packet_len;
  const uint8_t *packet;
  vp8_decoder decoder = VP8_INIT;
  film->is_well = vp8_decoder_new(&decoder, 16777216) == VP8_OK;
  while (film->is_well && (packet = next_packet(film->file, film->len, &at, &packet_len))) {
    vp8_status status = vp8_decoder_decode(&decoder, packet, packet_len);
    film->sum = added(film->sum, (const uint8_t *)&status, sizeof status);
    film->is_well = status == VP8_OK ? add_shown(&decoder, film) : status != VP8_MEMORY;
  }
  vp8_decoder_free(&decoder);
  return NULL;
}

/* Whether two decoded films are the same. */
static inline int are_same(const struct film *a, const struct film *b)
{
  return a->is_well && b->is_well && a->sum == b->sum && a->shown == b->shown;
}

#endif
