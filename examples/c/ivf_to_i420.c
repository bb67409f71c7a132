/* ivf_to_i420 IN.ivf OUT.i420: writes each picture that the packets of an IVF file show, and goes on behind packets
 * that can't be decoded. */
#include "ivf.h"
#include "planes.h"
#include "vp8.h"

/* Writes the picture that the last packet showed. */
static int put_shown(vp8_decoder *decoder, FILE *out)
{
  uint32_t width, height;
  struct planes planes;
  if (vp8_decoder_size(decoder, &width, &height) != VP8_OK || !planes_new(&planes, width, height)) return 0;
  vp8_status status = vp8_decoder_copy(decoder, planes.y, planes.luma_len, width, planes.u, planes.chroma_len,
                                       planes.chroma_stride, planes.v, planes.chroma_len, planes.chroma_stride);
  size_t len = planes.luma_len + 2 * planes.chroma_len;
  int is_put = status == VP8_OK && fwrite(planes.y, 1, len, out) == len;
  free(planes.y);
  return is_put;
}

int main(int count, char **words)
{
  if (count != 3) return fprintf(stderr, "ivf_to_i420 IN.ivf OUT.i420\n"), 2;
  size_t file_len, at = 32, packet_len;
  uint8_t *file = read_file(words[1], &file_len);
  FILE *out = fopen(words[2], "wb");
  if (!file || !out) return perror("ivf_to_i420"), 1;
  vp8_decoder decoder = VP8_INIT;
  int is_well = vp8_decoder_new(&decoder, 16777216) == VP8_OK;
  const uint8_t *packet;
  while (is_well && (packet = next_packet(file, file_len, &at, &packet_len))) {
    vp8_status status = vp8_decoder_decode(&decoder, packet, packet_len);
    if (status == VP8_OK) is_well = put_shown(&decoder, out);
    if (status == VP8_MEMORY) is_well = 0;
  }
  vp8_decoder_free(&decoder);
  free(file);
  return fclose(out) != 0 || !is_well;
}
