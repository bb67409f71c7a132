/* A picture as PPM. */
#ifndef PPM_H
#define PPM_H

#include <stdio.h>

#include "planes.h"

static inline uint8_t clamped(int number)
{
  return number < 0 ? 0 : number > 255 ? 255 : number;
}

/* Writes the picture as PPM, by the weights of BT.601 with luma from 16 to 235. */
static inline int write_ppm(const struct planes *planes, const char *path)
{
  FILE *file = fopen(path, "wb");
  if (!file) return 0;
  fprintf(file, "P6\n%u %u\n255\n", planes->width, planes->height);
  for (uint32_t row = 0; row < planes->height; row++)
    for (uint32_t column = 0; column < planes->width; column++) {
      size_t at = row / 2 * planes->chroma_stride + column / 2;
      int y = 298 * (planes->y[(size_t)row * planes->width + column] - 16);
      int u = planes->u[at] - 128, v = planes->v[at] - 128;
      uint8_t rgb[3] = { clamped((y + 409 * v + 128) >> 8), clamped((y - 100 * u - 208 * v + 128) >> 8),
                         clamped((y + 516 * u + 128) >> 8) };
      fwrite(rgb, 1, 3, file);
    }
  return fclose(file) == 0;
}

#endif
