/* encode IN.i420 WIDTH HEIGHT OUT.ivf [QI]: encodes raw pictures as an IVF file, 30 a second, decodes each packet
 * again, and says where that isn't the encoder's own reconstruction. */
#include <inttypes.h>
#include <string.h>

#include "ivf.h"
#include "planes.h"
#include "vp8.h"

static void put_little_endian(uint8_t *at, uint32_t number)
{
  for (int i = 0; i < 4; i++) at[i] = number >> 8 * i;
}

static int put_head(FILE *out, uint32_t width, uint32_t height, uint32_t packets)
{
  uint8_t head[32] = "DKIF\0\0\40\0VP80";
  put_little_endian(head + 12, width | height << 16);
  put_little_endian(head + 16, 30);
  put_little_endian(head + 20, 1);
  put_little_endian(head + 24, packets);
  return fseek(out, 0, SEEK_SET) == 0 && fwrite(head, 1, 32, out) == 32;
}

/* Writes the packet that is kept, and hands it to the decoder. */
static int put_packet(vp8_encoder *encoder, vp8_decoder *decoder, FILE *out, uint32_t time)
{
  size_t len;
  if (vp8_encoder_packet_size(encoder, &len) != VP8_OK) return 0;
  uint8_t *packet = malloc(12 + len);
  if (!packet) return 0;
  put_little_endian(packet, len);
  put_little_endian(packet + 4, time);
  put_little_endian(packet + 8, 0);
  int is_put = vp8_encoder_packet(encoder, packet + 12, len) == VP8_OK && fwrite(packet, 1, 12 + len, out) == 12 + len
               && vp8_decoder_decode(decoder, packet + 12, len) == VP8_OK;
  free(packet);
  return is_put;
}

/* Whether the decoder shows the encoder's reconstruction. */
static int is_reconstruction(vp8_encoder *encoder, vp8_decoder *decoder, struct planes *a, struct planes *b)
{
  return vp8_encoder_reconstruction(encoder, a->y, a->luma_len, a->width, a->u, a->chroma_len, a->chroma_stride, a->v,
                                    a->chroma_len, a->chroma_stride) == VP8_OK
         && vp8_decoder_copy(decoder, b->y, b->luma_len, b->width, b->u, b->chroma_len, b->chroma_stride, b->v,
                             b->chroma_len, b->chroma_stride) == VP8_OK
         && memcmp(a->y, b->y, a->luma_len + 2 * a->chroma_len) == 0;
}

int main(int count, char **words)
{
  if (count < 5) return fprintf(stderr, "encode IN.i420 WIDTH HEIGHT OUT.ivf [QI]\n"), 2;
  vp8_settings settings = { .qi = count > 5 ? atoi(words[5]) : 32, .level = 16, .key_every = 64, .range = 16,
                            .subpel = 1, .partitions = 1 };
  vp8_encoder encoder = VP8_INIT;
  vp8_decoder decoder = VP8_INIT;
  struct planes source, shown, again;
  uint32_t width = atoi(words[2]), height = atoi(words[3]), frames = 0;
  uint64_t error, sum = 0;
  FILE *in = fopen(words[1], "rb"), *out = fopen(words[4], "wb");
  if (!in || !out) return perror("encode"), 1;
  int is_well = vp8_encoder_new(&encoder, width, height, &settings) == VP8_OK
                && vp8_decoder_new(&decoder, 268402689) == VP8_OK && planes_new(&source, width, height)
                && planes_new(&shown, width, height) && planes_new(&again, width, height);
  if (!is_well || !put_head(out, width, height, 0)) return fprintf(stderr, "encode: refused\n"), 1;
  size_t len = source.luma_len + 2 * source.chroma_len;
  while (is_well && fread(source.y, 1, len, in) == len) {
    is_well = vp8_encoder_encode(&encoder, source.y, source.luma_len, width, source.u, source.chroma_len,
                                 source.chroma_stride, source.v, source.chroma_len, source.chroma_stride) == VP8_OK
              && put_packet(&encoder, &decoder, out, frames++) && is_reconstruction(&encoder, &decoder, &shown, &again)
              && vp8_encoder_squared_error(&encoder, &error) == VP8_OK;
    sum += is_well ? error : 0;
  }
  is_well = is_well && put_head(out, width, height, frames) && fclose(out) == 0;
  printf("frames %u error %" PRIu64 "%s\n", frames, sum, is_well ? "" : ", and then it failed");
  vp8_encoder_free(&encoder);
  vp8_decoder_free(&decoder);
  free(source.y), free(shown.y), free(again.y);
  fclose(in);
  return !is_well;
}
