/* Prints the flags of corruption of an IVF file's pictures, as a program that uses libvpx gets them.
 *
 *     corrupt_flags FILE..
 *
 * Not proved: the whole file. For each file it prints a line: a character for each packet, in order. '.' is a picture
 * without the flag, 'c' a picture with it, '-' a packet without a picture, and 'x' a refused packet. scripts/try_shim
 * runs it with libvpx and with the shim. */
#include <stdio.h>
#include <stdlib.h>

#include <vpx/vp8dx.h>
#include <vpx/vpx_decoder.h>

#include "ivf.h"

static char letter_of(vpx_codec_ctx_t *codec, const uint8_t *packet, size_t len)
{
  vpx_codec_iter_t iterator = NULL;
  int is_corrupt = 0;
  if (vpx_codec_decode(codec, packet, (unsigned int)len, NULL, 0) != VPX_CODEC_OK) return 'x';
  if (!vpx_codec_get_frame(codec, &iterator)) return '-';
  if (vpx_codec_control(codec, VP8D_GET_FRAME_CORRUPTED, &is_corrupt) != VPX_CODEC_OK) return '?';
  return is_corrupt ? 'c' : '.';
}

/* 0 if the file can't be read or the codec can't be opened. */
static int print_flags(const char *path)
{
  size_t file_len, at = 32, len;
  const uint8_t *packet;
  uint8_t *file = read_file(path, &file_len);
  vpx_codec_ctx_t codec;
  if (!file) return 0;
  if (vpx_codec_dec_init(&codec, vpx_codec_vp8_dx(), NULL, 0) != VPX_CODEC_OK) {
    free(file);
    return 0;
  }
  while ((packet = next_packet(file, file_len, &at, &len))) putchar(letter_of(&codec, packet, len));
  putchar('\n');
  vpx_codec_destroy(&codec);
  free(file);
  return 1;
}

int main(int count, char **paths)
{
  for (int i = 1; i < count; i++)
    if (!print_flags(paths[i])) {
      fprintf(stderr, "corrupt_flags: %s can't be decoded\n", paths[i]);
      return 1;
    }
  return 0;
}
