/* By hand what crates/bench_folds does: see bench/folds.py.
   Groups and distinct keys stand in one table of open addressing, at most half full, over an arena of bytes; the keys are
   sorted once at the end. */
#include <stdint.h>
#include <stdio.h>
#include <stdlib.h>
#include <string.h>

#define BLOCK_ROWS 20000

static uint64_t next(uint64_t number) { return number * 6364136223846793005ull + 1442695040888963407ull; }
static int16_t small(uint64_t number) { return (int16_t)((int64_t)((number >> 33) % 65536) - 32768); }

/* ---- columns */

#define LOOP __attribute__((noinline)) static
LOOP long least(const int16_t *x, size_t n) { int16_t r = x[0]; for (size_t i = 1; i < n; i++) r = x[i] < r ? x[i] : r; return r; }
LOOP long greatest(const int16_t *x, size_t n) { int16_t r = x[0]; for (size_t i = 1; i < n; i++) r = x[i] > r ? x[i] : r; return r; }
LOOP long some(const uint8_t *x, size_t n) { uint8_t r = 0; for (size_t i = 0; i < n; i++) r |= x[i]; return r; }
LOOP long nonzero(const int16_t *x, size_t n) { long r = 0; for (size_t i = 0; i < n; i++) r += x[i] != 0; return r; }
LOOP long total(const int16_t *x, size_t n) { long r = 0; for (size_t i = 0; i < n; i++) r += x[i]; return r; }
LOOP long native(const int16_t *x, size_t n) {
  int r = 0;
  for (size_t i = 0; i < n; i++) { r += x[i]; r = r < INT16_MIN ? INT16_MIN : r > INT16_MAX ? INT16_MAX : r; }
  return r;
}
LOOP void running(const int16_t *x, int16_t *z, size_t n) {
  int r = 0;
  for (size_t i = 0; i < n; i++) { r += x[i]; r = r < INT16_MIN ? INT16_MIN : r > INT16_MAX ? INT16_MAX : r; z[i] = r; }
}

static long of_column(const char *name, size_t rows, size_t turns) {
  int16_t *x = malloc(rows * sizeof *x);
  uint8_t *b = calloc(rows, 1);
  uint64_t number = 1;
  long found = 0;
  for (size_t i = 0; i < rows; i++) { number = next(number); x[i] = small(number); }
  for (size_t t = 0; t < turns; t++) {
    if (!strcmp(name, "min")) found = least(x, rows);
    else if (!strcmp(name, "max")) found = greatest(x, rows);
    else if (!strcmp(name, "any")) found = some(b, rows);
    else if (!strcmp(name, "nnz")) found = nonzero(x, rows);
    else if (!strcmp(name, "sum")) found = total(x, rows);
    else if (!strcmp(name, "native")) found = native(x, rows);
    else { int16_t *z = malloc(rows * sizeof *z); running(x, z, rows); found = z[rows - 1]; free(z); }
  }
  return found;
}

/* ---- blocks: texts in one buffer, with the place where each ends */

struct block { char *bytes; size_t *ends; int16_t *values; size_t rows, held, room; };

static void add(struct block *b, const char *key, int16_t value) {
  size_t n = strlen(key);
  if (b->rows == 0) { b->room = 16 * BLOCK_ROWS; b->bytes = malloc(b->room); b->ends = malloc(BLOCK_ROWS * sizeof(size_t)); b->values = malloc(BLOCK_ROWS * sizeof(int16_t)); }
  memcpy(b->bytes + b->held, key, n);
  b->held += n;
  b->ends[b->rows] = b->held;
  b->values[b->rows++] = value;
}

struct group { size_t start; uint32_t len, hash; int64_t sum, rows; };
struct table { struct group *groups; size_t count, room; uint32_t *slots; size_t mask; char *bytes; size_t held, bytes_room; };

/* the first bytes, at most eight; each buffer has eight more */
static uint64_t load(const char *p, size_t n) { uint64_t w; memcpy(&w, p, 8); return n >= 8 ? w : w & ((1ull << 8 * n) - 1); }

static uint32_t hash_of(const char *p, size_t n) {
  uint64_t h = 0x9e3779b97f4a7c15ull;
  for (; n >= 8; p += 8, n -= 8) { h = (h ^ load(p, 8)) * 0xff51afd7ed558ccdull; h ^= h >> 32; }
  h = (h ^ load(p, n) ^ (uint64_t)n << 56) * 0xff51afd7ed558ccdull;
  return (h ^ h >> 29) >> 16;
}

static void rehash(struct table *t, size_t slots) {
  free(t->slots);
  t->slots = calloc(slots, sizeof *t->slots);
  t->mask = slots - 1;
  for (size_t g = 0; g < t->count; g++) {
    size_t i = t->groups[g].hash & t->mask;
    while (t->slots[i]) i = (i + 1) & t->mask;
    t->slots[i] = g + 1;
  }
}

static struct group *find(struct table *t, const char *key, size_t n) {
  uint32_t h = hash_of(key, n);
  size_t i = h & t->mask;
  for (; t->slots[i]; i = (i + 1) & t->mask) {
    struct group *g = &t->groups[t->slots[i] - 1];
    if (g->hash == h && g->len == n && !memcmp(t->bytes + g->start, key, n)) return g;
  }
  if (t->count == t->room) t->groups = realloc(t->groups, (t->room *= 2) * sizeof *t->groups);
  while (t->held + n > t->bytes_room) t->bytes = realloc(t->bytes, (t->bytes_room *= 2) + 8);
  memcpy(t->bytes + t->held, key, n);
  t->groups[t->count] = (struct group){t->held, n, h, 0, 0};
  t->held += n;
  t->slots[i] = ++t->count;
  if (2 * t->count > t->mask) rehash(t, 2 * (t->mask + 1));
  return &t->groups[t->count - 1];
}

/* in the order of bytes: first by the first eight of them */
struct sorted { uint64_t front; uint32_t group; };
static struct table *sorting;
static int by_key(const void *a, const void *b) {
  const struct sorted *x = a, *y = b;
  if (x->front != y->front) return x->front < y->front ? -1 : 1;
  struct group *g = &sorting->groups[x->group], *h = &sorting->groups[y->group];
  size_t n = g->len < h->len ? g->len : h->len;
  int c = memcmp(sorting->bytes + g->start, sorting->bytes + h->start, n);
  return c ? c : (g->len > h->len) - (g->len < h->len);
}

static void grouped(const struct block *blocks, size_t count, int distinct, size_t *found, long *last) {
  struct table t = {malloc(16 * sizeof(struct group)), 0, 16, 0, 0, malloc(256 + 8), 0, 256};
  rehash(&t, 32);
  for (size_t b = 0; b < count; b++) {
    size_t start = 0;
    for (size_t i = 0; i < blocks[b].rows; i++) {
      size_t end = blocks[b].ends[i];
      struct group *g = find(&t, blocks[b].bytes + start, end - start);
      if (!distinct) { g->sum += blocks[b].values[i]; g->rows++; }
      start = end;
    }
  }
  struct sorted *s = malloc(t.count * sizeof *s);
  for (size_t g = 0; g < t.count; g++) {
    size_t n = t.groups[g].len < 8 ? t.groups[g].len : 8;
    s[g] = (struct sorted){__builtin_bswap64(load(t.bytes + t.groups[g].start, n)), g};
  }
  sorting = &t;
  qsort(s, t.count, sizeof *s, by_key);
  /* the columns of the result */
  char *bytes = malloc(t.held + 1);
  size_t *ends = malloc((t.count + 1) * sizeof *ends), held = 0;
  double *rows = malloc((t.count + 1) * sizeof *rows), *sums = malloc((t.count + 1) * sizeof *sums);
  for (size_t i = 0; i < t.count; i++) {
    struct group *g = &t.groups[s[i].group];
    memcpy(bytes + held, t.bytes + g->start, g->len);
    ends[i] = held += g->len;
    if (!distinct) { rows[i] = g->rows; sums[i] = g->sum; }
  }
  *found = t.count;
  *last = distinct || !t.count ? 0 : (long)sums[t.count - 1];
  free(bytes), free(ends), free(rows), free(sums), free(s), free(t.groups), free(t.slots), free(t.bytes);
}

int main(int words, char **word) {
  const char *name = word[1];
  size_t rows = strtoull(word[2], 0, 10), turns = strtoull(word[3], 0, 10);
  if (strcmp(name, "groups") && strcmp(name, "distinct")) {
    printf("%ld\n", of_column(name, rows, turns));
    return 0;
  }
  size_t keys = words > 4 ? strtoull(word[4], 0, 10) : 0, count = rows / BLOCK_ROWS + 1, found = 0;
  struct block *blocks = calloc(count, sizeof *blocks);
  uint64_t number = 1;
  long last = 0;
  for (size_t i = 0; i < rows; i++) {
    char key[32];
    number = next(number);
    sprintf(key, "key%zu", keys ? (size_t)(number >> 20) % keys : 0);
    add(&blocks[i / BLOCK_ROWS], key, small(number));
  }
  for (size_t t = 0; t < turns; t++) grouped(blocks, count, !strcmp(name, "distinct"), &found, &last);
  printf("%zu %ld\n", found, last);
  return 0;
}
