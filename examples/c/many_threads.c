/* many_threads N IN.ivf ..: decodes each IVF file on the main thread, then the files by turns on N threads at once,
 * each with a decoder of its own, and ends with 1 if a thread doesn't show the same pictures. */
#define _POSIX_C_SOURCE 200809L
#include <pthread.h>

#include "film.h"

#define MOST_THREADS 64

/* Decodes the films by turns on `count` threads; returns how many of them don't show what they do alone. */
static int decode_at_once(const struct film *films, int film_count, int count)
{
  pthread_t threads[MOST_THREADS];
  struct film again[MOST_THREADS];
  int started = 0, failed = 0;
  for (int i = 0; i < count; i++) {
    again[i] = films[i % film_count];
    again[i].sum = again[i].shown = 0;
    if (pthread_create(&threads[i], NULL, decode_film, &again[i])) break;
    started++;
  }
  for (int i = 0; i < started; i++) {
    failed += pthread_join(threads[i], NULL) || !are_same(&films[i % film_count], &again[i]);
  }
  return failed + count - started;
}

int main(int word_count, char **words)
{
  int count = word_count > 2 ? atoi(words[1]) : 0, film_count = word_count - 2, failed = 0;
  if (count < 1 || count > MOST_THREADS) return fprintf(stderr, "many_threads N IN.ivf ..: N from 1 to 64\n"), 2;
  struct film *films = calloc((size_t)film_count, sizeof *films);
  if (!films) return 1;
  for (int i = 0; i < film_count; i++) {
    films[i].file = read_file(words[2 + i], &films[i].len);
    if (!films[i].file) return perror(words[2 + i]), 1;
    decode_film(&films[i]);
  }
  failed = decode_at_once(films, film_count, count);
  printf("%d threads, %d files: %d not the same\n", count, film_count, failed);
  for (int i = 0; i < film_count; i++) free((void *)films[i].file);
  free(films);
  return failed != 0;
}
