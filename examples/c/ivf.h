/* Packets of an IVF file in memory, one after another. */
#ifndef IVF_H
#define IVF_H

#include <stddef.h>
#include <stdint.h>
#include <stdio.h>
#include <stdlib.h>

static inline uint32_t little_endian(const uint8_t *at)
{
  return at[0] | (uint32_t)at[1] << 8 | (uint32_t)at[2] << 16 | (uint32_t)at[3] << 24;
}

/* All bytes of a file, or NULL. They never are a null pointer, also where the file is empty. */
static inline uint8_t *read_file(const char *path, size_t *len)
{
  *len = 0;
  FILE *file = fopen(path, "rb");
  if (!file) return NULL;
  size_t room = 1 << 16;
  uint8_t *bytes = malloc(room);
  while (bytes) {
    size_t got = fread(bytes + *len, 1, room - *len, file);
    *len += got;
    if (got == 0) break;
    if (*len < room) continue;
    uint8_t *more = realloc(bytes, room *= 2);
    if (!more) free(bytes);
    bytes = more;
  }
  fclose(file);
  return bytes;
}

/* The next packet behind `*at`, which is 32 at first; NULL where no whole one is left. */
static inline const uint8_t *next_packet(const uint8_t *file, size_t file_len, size_t *at, size_t *packet_len)
{
  if (file_len < *at || file_len - *at < 12) return NULL;
  *packet_len = little_endian(file + *at);
  if (file_len - *at - 12 < *packet_len) return NULL;
  const uint8_t *packet = file + *at + 12;
  *at += 12 + *packet_len;
  return packet;
}

#endif
