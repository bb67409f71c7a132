/* small_stack IN.ivf ..: decodes each IVF file on the main thread and on a thread with a stack of 32 KiB, and ends with
 * 1 where the two don't show the same pictures. */
#define _POSIX_C_SOURCE 200809L
#include <pthread.h>

#include "film.h"

#define STACK_BYTES 32768

/* Decodes a film on a thread with a small stack. */
static int decode_on_thread(struct film *film)
{
  pthread_t thread;
  pthread_attr_t attributes;
  if (pthread_attr_init(&attributes)) return 0;
  int is_made = !pthread_attr_setstacksize(&attributes, STACK_BYTES)
                && !pthread_create(&thread, &attributes, decode_film, film);
  pthread_attr_destroy(&attributes);
  return is_made && !pthread_join(thread, NULL);
}

/* Decodes a file twice, and compares. */
static int is_same(const char *path)
{
  size_t len;
  uint8_t *file = read_file(path, &len);
  if (!file) return perror(path), 0;
  struct film wanted = { file, len, 0, 0, 0 }, got = wanted;
  decode_film(&wanted);
  int is_decoded = decode_on_thread(&got);
  free(file);
  return is_decoded && are_same(&wanted, &got);
}

int main(int count, char **words)
{
  int failed = count < 2;
  for (int i = 1; i < count; i++) {
    if (is_same(words[i])) continue;
    printf("%s: not the same on a stack of %d bytes\n", words[i], STACK_BYTES);
    failed = 1;
  }
  return failed;
}
