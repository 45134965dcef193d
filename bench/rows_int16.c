/* x .* 3 + 1 over a column of int16 by hand, so many turns: in one loop into one array, or with the word `two` in two
   loops, each into an array of its own, as two operators do it. The words are the number of rows and of turns. */
#include <stdint.h>
#include <stdio.h>
#include <stdlib.h>
#include <string.h>

static int16_t nearest(int32_t n) { return n < -32768 ? -32768 : n > 32767 ? 32767 : n; }

__attribute__((noinline)) static int16_t *line(const int16_t *x, size_t rows) {
  int16_t *y = malloc(rows * sizeof *y);
  if (y)
    for (size_t i = 0; i < rows; i++) y[i] = nearest(nearest(x[i] * 3) + 1);
  return y;
}

__attribute__((noinline)) static int16_t *times(const int16_t *x, size_t rows, int16_t by) {
  int16_t *y = malloc(rows * sizeof *y);
  if (y)
    for (size_t i = 0; i < rows; i++) y[i] = nearest(x[i] * by);
  return y;
}

__attribute__((noinline)) static int16_t *plus(const int16_t *x, size_t rows, int16_t by) {
  int16_t *y = malloc(rows * sizeof *y);
  if (y)
    for (size_t i = 0; i < rows; i++) y[i] = nearest(x[i] + by);
  return y;
}

int main(int count, char **words) {
  size_t rows = count > 1 ? strtoull(words[1], 0, 10) : 0;
  size_t turns = count > 2 ? strtoull(words[2], 0, 10) : 0;
  int two = count > 3 && strcmp(words[3], "two") == 0;
  int16_t *x = malloc(rows * sizeof *x + 1);
  if (!x) return 1;
  for (size_t i = 0; i < rows; i++) x[i] = (int16_t)((int32_t)(i % 65536) - 32768);
  int last = 0;
  for (size_t turn = 0; turn < turns; turn++) {
    int16_t *product = two ? times(x, rows, 3) : 0;
    int16_t *y = two ? plus(product, rows, 1) : line(x, rows);
    if (!y) return 1;
    last = rows ? y[rows - 1] : 0;
    free(product);
    free(y);
  }
  printf("%d\n", last);
  free(x);
  return 0;
}
