/* Writes the first picture of an IVF file as PGM: luma alone.
 *
 *     gcc examples/c/first.c $(pkg-config --cflags --libs vp8) -o first
 *     ./first FILE > first.pgm
 *
 * Not proved: the whole file. */
#include <stdio.h>

#include <vp8.h>

#include "ivf.h"

static void write_luma(const vp8_lent_picture *picture)
{
  printf("P5 %u %u 255\n", picture->width, picture->height);
  for (uint32_t row = 0; row < picture->height; row++)
    fwrite(picture->y.at + row * picture->y.stride, 1, picture->width, stdout);
}

int main(int count, char **words)
{
  if (count != 2) return fprintf(stderr, "first FILE\n"), 2;
  size_t file_len, at = 32, packet_len;
  uint8_t *file = read_file(words[1], &file_len);
  if (!file) return perror(words[1]), 2;
  int shown = 0;
  vp8_decoder decoder = VP8_INIT;
  vp8_lent_picture picture;
  vp8_status status = vp8_decoder_new(&decoder, 16777216);
  const uint8_t *packet;
  while (status != VP8_MEMORY && (packet = next_packet(file, file_len, &at, &packet_len))) {
    /* A damaged packet costs its picture alone, and its status says what is wrong with it. */
    status = vp8_decoder_decode_keeping(&decoder, packet, packet_len);
    if (status != VP8_OK) continue;
    status = vp8_decoder_lend(&decoder, &picture);
    if (status == VP8_OK) write_luma(&picture), shown = 1;
    break;
  }
  if (!shown) fprintf(stderr, "%s: no picture is shown\n", words[1]);
  vp8_decoder_free(&decoder);
  free(file);
  return !shown;
}
