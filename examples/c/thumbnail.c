/* thumbnail IN.ivf OUT.ppm [WIDTH]: a small picture of an IVF file: that of the packet in its middle, or of the first
 * one behind it that shows one, at most WIDTH (160) pixels wide, each pixel the mean of those that it stands for. */
#include "ivf.h"
#include "planes.h"
#include "ppm.h"
#include "vp8.h"

/* The mean of the pixels of a plane that the pixel at (column, row) of a smaller plane stands for. */
static uint8_t mean(const uint8_t *plane, size_t width, size_t height, size_t column, size_t row, size_t columns,
                    size_t rows)
{
  size_t sum = 0, left = column * width / columns, right = (column + 1) * width / columns;
  size_t top = row * height / rows, bottom = (row + 1) * height / rows;
  for (size_t y = top; y < bottom; y++)
    for (size_t x = left; x < right; x++) sum += plane[y * width + x];
  return sum / ((right - left) * (bottom - top));
}

static void shrink(const uint8_t *from, size_t width, size_t height, uint8_t *to, size_t columns, size_t rows)
{
  for (size_t row = 0; row < rows; row++)
    for (size_t column = 0; column < columns; column++)
      to[row * columns + column] = mean(from, width, height, column, row, columns, rows);
}

static int write_thumbnail(vp8_stream *stream, const char *path, uint32_t most)
{
  uint32_t width, height;
  struct planes whole, small;
  if (vp8_stream_size(stream, &width, &height) != VP8_OK || !planes_new(&whole, width, height)) return 1;
  uint32_t columns = width < most ? width : most, rows = (uint64_t)height * columns / width;
  if (rows == 0) rows = 1;
  int is_written = 0;
  if (planes_new(&small, columns, rows)) {
    if (vp8_stream_copy_i420(stream, whole.y, whole.luma_len + 2 * whole.chroma_len) == VP8_OK) {
      shrink(whole.y, width, height, small.y, columns, rows);
      shrink(whole.u, whole.chroma_stride, (height + 1) / 2, small.u, small.chroma_stride, (rows + 1) / 2);
      shrink(whole.v, whole.chroma_stride, (height + 1) / 2, small.v, small.chroma_stride, (rows + 1) / 2);
      is_written = write_ppm(&small, path);
    }
    free(small.y);
  }
  free(whole.y);
  return !is_written;
}

int main(int count, char **words)
{
  long most = count > 3 ? atol(words[3]) : 160;
  if (count < 3 || most < 1) return fprintf(stderr, "thumbnail IN.ivf OUT.ppm [WIDTH]\n"), 2;
  size_t file_len;
  uint8_t *file = read_file(words[1], &file_len);
  if (!file) return perror(words[1]), 1;
  vp8_stream stream = VP8_INIT;
  vp8_stream_info info = { 0 };
  int ended = 1;
  if (vp8_stream_new(&stream, file, file_len) == VP8_OK && vp8_stream_get_info(&stream, &info) == VP8_OK) {
    uint32_t n = info.packets / 2;
    while (n < info.packets && vp8_stream_picture_at(&stream, n) != VP8_OK) n++;
    if (n < info.packets) ended = write_thumbnail(&stream, words[2], most);
  }
  if (ended) fprintf(stderr, "%s: no picture\n", words[1]);
  vp8_stream_free(&stream);
  free(file);
  return ended;
}
