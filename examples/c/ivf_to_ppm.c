/* ivf_to_ppm IN.ivf N OUT.ppm: decodes the packets of an IVF file one after another, and writes the picture that
 * packet N, from 0, shows. */
#include "ivf.h"
#include "planes.h"
#include "ppm.h"
#include "vp8.h"

static void complain(const char *what, vp8_status status)
{
  uint8_t name[32] = "";
  vp8_status_name(status, name, sizeof name);
  fprintf(stderr, "%s: %s\n", what, (char *)name);
}

/* Writes the picture that the last packet showed. */
static int write_shown(vp8_decoder *decoder, const char *path)
{
  uint32_t width, height;
  struct planes planes;
  vp8_status status = vp8_decoder_size(decoder, &width, &height);
  if (status != VP8_OK || !planes_new(&planes, width, height)) {
    complain("no picture", status);
    return 1;
  }
  status = vp8_decoder_copy(decoder, planes.y, planes.luma_len, width, planes.u, planes.chroma_len,
                            planes.chroma_stride, planes.v, planes.chroma_len, planes.chroma_stride);
  int is_written = status == VP8_OK && write_ppm(&planes, path);
  free(planes.y);
  return !is_written;
}

int main(int count, char **words)
{
  if (count != 4) return fprintf(stderr, "ivf_to_ppm IN.ivf N OUT.ppm\n"), 2;
  size_t file_len, at = 32, packet_len;
  uint8_t *file = read_file(words[1], &file_len);
  if (!file) return perror(words[1]), 1;
  vp8_decoder decoder = VP8_INIT;
  vp8_status status = vp8_decoder_new(&decoder, 16777216);
  const uint8_t *packet;
  int is_open = status == VP8_OK;
  /* A packet that can't be decoded doesn't end the work: a key packet may come behind it. */
  for (long left = atol(words[2]); is_open && (packet = next_packet(file, file_len, &at, &packet_len)); left--) {
    status = vp8_decoder_decode(&decoder, packet, packet_len);
    if (left == 0) break;
  }
  if (status != VP8_OK) complain(words[1], status);
  int ended = status == VP8_OK ? write_shown(&decoder, words[3]) : 1;
  vp8_decoder_free(&decoder);
  free(file);
  return ended;
}
