/* Three planes in one piece of memory. */
#ifndef PLANES_H
#define PLANES_H

#include <stddef.h>
#include <stdint.h>
#include <stdlib.h>

struct planes {
  uint32_t width, height;
  size_t luma_len, chroma_stride, chroma_len;
  uint8_t *y, *u, *v; /* u and v stand behind y, so that y is all of I420 */
};

static inline int planes_new(struct planes *planes, uint32_t width, uint32_t height)
{
  planes->width = width;
  planes->height = height;
  planes->luma_len = (size_t)width * height;
  planes->chroma_stride = (width + 1) / 2;
  planes->chroma_len = planes->chroma_stride * ((height + 1) / 2);
  planes->y = malloc(planes->luma_len + 2 * planes->chroma_len);
  if (!planes->y) return 0;
  planes->u = planes->y + planes->luma_len;
  planes->v = planes->u + planes->chroma_len;
  return 1;
}

#endif
