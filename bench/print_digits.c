/* A column of numbers as text by hand, so many turns, into one buffer: four blanks, the digits in pairs from a table, a line
   feed. The words are the number of rows and of turns; the numbers are those of crates/bench_print. */
#include <stdint.h>
#include <stdio.h>
#include <stdlib.h>
#include <string.h>

static char pairs[200];

static inline uint32_t digits_of(uint32_t n) {
  return n < 10 ? 1 : n < 100 ? 2 : n < 1000 ? 3 : n < 10000 ? 4 : n < 100000 ? 5 : n < 1000000 ? 6 : n < 10000000 ? 7
       : n < 100000000 ? 8 : n < 1000000000 ? 9 : 10;
}

__attribute__((noinline)) static char *print(char *at, const int32_t *x, size_t rows) {
  for (size_t i = 0; i < rows; i++) {
    memcpy(at, "    ", 4);
    at += 4;
    uint32_t n = x[i] < 0 ? 0u - (uint32_t)x[i] : (uint32_t)x[i];
    *at = '-';
    at += x[i] < 0;
    uint32_t count = digits_of(n);
    char *to = at + count;
    at = to;
    while (n >= 100) {
      to -= 2;
      memcpy(to, pairs + 2 * (n % 100), 2);
      n /= 100;
    }
    if (n >= 10)
      memcpy(to - 2, pairs + 2 * n, 2);
    else
      to[-1] = (char)('0' + n);
    *at++ = '\n';
  }
  return at;
}

int main(int count, char **words) {
  size_t rows = count > 1 ? strtoull(words[1], 0, 10) : 0;
  size_t turns = count > 2 ? strtoull(words[2], 0, 10) : 0;
  for (int i = 0; i < 100; i++) {
    pairs[2 * i] = (char)('0' + i / 10);
    pairs[2 * i + 1] = (char)('0' + i % 10);
  }
  int32_t *x = malloc(rows * sizeof *x + 1);
  char *text = malloc(rows * 16 + 64);
  if (!x || !text) return 1;
  uint64_t state = 1;
  for (size_t i = 0; i < rows; i++) {
    state = (state * 1103515245 + 12345) % 2147483648u;
    int64_t small = (int64_t)state >> (state / 65536 % 31);
    x[i] = (int32_t)(state / 1024 % 2 ? -small : small);
  }
  size_t length = 0;
  for (size_t turn = 0; turn < turns; turn++) {
    char *at = text + sprintf(text, "x = int32 %zux1\n", rows);
    length = (size_t)(print(at, x, rows) - text);
  }
  printf("%zu\n", length);
  free(x);
  free(text);
  return 0;
}
