/* bench.c: the same work for the library and for plain C, to count instructions over. Built twice from this source: over the archive, and
   with -DOVER_PLAIN over bench/plain.c. bench/run counts both and prints a table.

   bench list                      every workload, a line each: its words, and how often it is made
   bench MODE REPEATS WORDS..      MODE call: makes the calls; base: all but the calls; tests (collect alone): a root cell more, that is
                                   no object, so that every test of a collection is made and nothing is copied
   Prints a sum over the answers, the same for both builds. What is counted is the difference of two modes, so that neither the making of
   heaps nor the restoring of memory between collections is part of it. */
#include "fouterpin.h"

#include <inttypes.h>
#include <stdio.h>
#include <stdlib.h>
#include <string.h>

#ifdef OVER_PLAIN
#include "plain.h"
#define CALL(name) plain_##name
#else
#define CALL(name) fouterpin_##name
#endif

enum { most_pages = 4096, most_words = 1024 * 4096, most_list = 8192 };
static uint32_t heap[most_words], heap_kept[most_words];
static uint16_t labels[most_pages], labels_kept[most_pages], links[most_pages];
static uint32_t roots[most_list], roots_kept[most_list], hints[most_list];
static size_t roots_len, hints_len;
static fouterpin_record rec;
static uint64_t sum;

#define LENT heap, (size_t)rec.page *rec.pages, labels, rec.pages, links, rec.pages, rec

/* Objects in order of their making. */
static uint32_t made[most_words / 2];
static uint32_t made_len;

static uint64_t random_state = 1;
static uint32_t below(uint32_t n)
{
  random_state = random_state * UINT64_C(6364136223846793005) + UINT64_C(1442695040888963407);
  return (uint32_t)(random_state >> 33) % n;
}

static void begin(uint32_t page, uint32_t pages)
{
  rec.page = page;
  rec.pages = pages;
  rec.label = 1;
  rec.opened = 0;
  rec.fill = page;
  made_len = 0;
}

/* Objects of d payload words, p references, on `used` pages, as many as go into `room` words of each: written directly, by neither side. */
static void fill_pages(uint32_t used, uint32_t room, uint32_t d, uint32_t p)
{
  uint32_t which, at;
  for (which = 1; which <= used; which++) {
    labels[which] = 1;
    for (at = 0; at + d + 1 <= room; at += d + 1) {
      made[made_len++] = which * rec.page + at;
      heap[which * rec.page + at] = (d + 1) << 16 | p << 1 | 1;
    }
    rec.opened = which;
    rec.fill = at;
  }
}

static void shuffle_made(void)
{
  uint32_t i;
  for (i = made_len; i > 1; i--) {
    uint32_t j = below(i), t = made[j];
    made[j] = made[i - 1];
    made[i - 1] = t;
  }
}

/* An answer with the refusal that it should have. */
static void counted(fouterpin_answer a, uint32_t refusal)
{
  if (a.refusal != refusal) {
    printf("refused with %" PRIu32 "\n", a.refusal);
    exit(1);
  }
  sum += a.value + a.record.fill;
}

/* Allocate at the same fill of the same open page again and again: the record goes in by value. */
static void bench_fits(int calls, uint32_t repeats, uint32_t page, uint32_t d)
{
  uint32_t i;
  begin(page, 64);
  fill_pages(3, page, 0, 0);
  rec.fill = 1;
  for (i = 0; i < repeats; i++)
    if (calls)
      counted(CALL(allocate)(LENT, d, 1), 0);
}

/* Allocate that takes a page, with a third of the pages in use; the page's label is taken back. */
static void bench_page(int calls, uint32_t repeats, uint32_t page, uint32_t pages)
{
  uint32_t i, used = pages / 3 - 2;
  begin(page, pages);
  fill_pages(used, page, 0, 0);
  rec.fill = page;
  for (i = 0; i < repeats; i++) {
    if (calls)
      counted(CALL(allocate)(LENT, 2, 1), 0);
    labels[used + 1] = 0;
  }
}

/* Load, store and look-up, each at all objects of a page in turn, or again and again at its first, middle or last one. Look-up is given the
   object's own address, or that of its last word, which is inside. A reference is stored to the object in the same place of another page. */
enum { loads, looks, insides, numbers, references, word_calls };
static const char *const word_call_names[word_calls] = {"load", "look", "inside", "number", "reference"};
enum { all, first, middle, last, places };
static const char *const place_names[places] = {"all", "first", "middle", "last"};

static int named(const char *name, const char *const *names, int count)
{
  int i;
  for (i = 0; i < count; i++)
    if (strcmp(name, names[i]) == 0)
      return i;
  printf("no such workload\n");
  exit(2);
}

static void bench_word(const char *what, int calls, uint32_t repeats, uint32_t page, uint32_t d, const char *where)
{
  int call = named(what, word_call_names, word_calls), place = named(where, place_names, places);
  uint32_t i, n, from, count;
  begin(page, 64);
  fill_pages(2, page, d, call == references);
  n = made_len / 2;
  from = place == middle ? n / 2 : place == last ? n - 1 : 0;
  count = place == all ? n : 1;
  for (i = 0; i < repeats; i++) {
    uint32_t nth = from + i % count, object = made[nth];
    if (calls) {
      if (call == loads)
        counted(CALL(load)(LENT, object, d - 1), 0);
      else if (call == looks)
        counted(CALL(look_up)(LENT, object), 0);
      else if (call == insides)
        counted(CALL(look_up)(LENT, object + d), FOUTERPIN_INSIDE);
      else if (call == numbers)
        counted(CALL(store)(LENT, object, d - 1, i), 0);
      else
        counted(CALL(store)(LENT, object, 0, made[n + nth]), 0);
    }
  }
}

/* By P and d. For one object of a page d is 1: then 8 words have four, and first, middle and last are three of them. How often it is made is a
   multiple of the page's objects, so that `all` is at each of them as often as at any other. */
static void list_words(void)
{
  static const uint32_t shapes[][2] = {{8, 3}, {128, 3}, {1024, 3}, {1024, 60}, {8, 1}, {128, 1}, {1024, 1}};
  size_t i;
  int call, place;
  for (call = 0; call < word_calls; call++)
    for (i = 0; i < sizeof shapes / sizeof *shapes; i++)
      for (place = 0; place < places; place++) {
        uint32_t page = shapes[i][0], d = shapes[i][1];
        if ((place == all) == (d > 1))
          printf("%d %s %" PRIu32 " %" PRIu32 " %s\n", page == 1024 ? 5120 : 20480, word_call_names[call], page, d, place_names[place]);
      }
}

/* A live structure over a third of the pages; `crowded`, one live object with half of them in use. `ends` are arrays, and the hints are words just
   past a page. `remnants` are a list over an eighth of each of three quarters of the pages: there is room for their words, and would be none for
   full pages. `full` and `scattered` are a list over seven eighths of the pages, so that most are kept: in order, where pages are copied
   whole or kept whole, and shuffled, where each kept page has lost a part of its objects and fillers are left. */
static void build(const char *shape, uint32_t page, uint32_t pages)
{
  uint32_t i, used = pages / 3 - 1;
  begin(page, pages);
  roots_len = 1;
  if (strcmp(shape, "list") == 0 || strcmp(shape, "shuffled") == 0 || strcmp(shape, "remnants") == 0 || strcmp(shape, "full") == 0 ||
      strcmp(shape, "scattered") == 0) {
    if (shape[0] == 'r')
      fill_pages(pages / 4 * 3, page / 8, 3, 1);
    else if (shape[0] == 'f' || shape[1] == 'c')
      fill_pages(pages / 8 * 7, page, 3, 1);
    else
      fill_pages(used, page, 3, 1);
    if (shape[0] == 's')
      shuffle_made();
    for (i = 0; i + 1 < made_len; i++)
      heap[made[i] + 1] = made[i + 1];
    roots[0] = made[0];
  } else if (strcmp(shape, "tree") == 0) {
    fill_pages(used, page, 3, 2);
    for (i = 1; i < made_len; i++)
      heap[made[(i - 1) / 2] + 1 + (i - 1) % 2] = made[i];
    roots[0] = made[0];
  } else if (strcmp(shape, "arrays") == 0 || strcmp(shape, "ends") == 0) {
    fill_pages(used, page, page - 1, 0);
    for (i = 0; i < made_len; i++)
      roots[i] = made[i];
    roots_len = made_len;
  } else if (strcmp(shape, "dead") == 0) {
    fill_pages(used, page, 3, 1);
    roots[0] = made[made_len / 2];
  } else if (strcmp(shape, "crowded") == 0) {
    fill_pages(pages / 2, page, 3, 1);
    roots[0] = made[made_len / 2];
  } else {
    printf("no such shape\n");
    exit(2);
  }
}

static void bench_collect(const char *mode, uint32_t repeats, const char *shape, uint32_t page, uint32_t pages, uint32_t hinted)
{
  size_t words = (size_t)page * pages, i;
  uint32_t r;
  build(shape, page, pages);
  hints_len = hinted;
  for (i = 0; i < hints_len; i++)
    hints[i] = strcmp(shape, "ends") == 0 ? page * (1 + below(pages)) : below((uint32_t)words);
  if (mode[0] == 't')
    roots[roots_len++] = made[0] + 1;
  memcpy(heap_kept, heap, words * sizeof *heap);
  memcpy(labels_kept, labels, pages * sizeof *labels);
  memcpy(roots_kept, roots, roots_len * sizeof *roots);
  for (r = 0; r < repeats; r++) {
    memcpy(heap, heap_kept, words * sizeof *heap);
    memcpy(labels, labels_kept, pages * sizeof *labels);
    memcpy(roots, roots_kept, roots_len * sizeof *roots);
    if (mode[0] != 'b') {
      fouterpin_collected c = CALL(collect)(LENT, roots, roots_len, hints, hints_len);
      if (c.refusal != (mode[0] == 't' ? 6 : 0)) {
        printf("refused with %" PRIu32 "\n", c.refusal);
        exit(1);
      }
      sum += c.hinted + 3 * (uint64_t)c.taken + 5 * (uint64_t)c.objects + 7 * (uint64_t)c.words + roots[0];
      sum += 11 * (uint64_t)c.kept + 13 * (uint64_t)c.fillers;
    }
  }
}

static const char *const workloads[] = {
  "20000 fits 8 2", "20000 fits 128 2", "20000 fits 1024 2", "5000 fits 1024 900",
  "5000 page 8 64", "1000 page 8 1024", "300 page 8 4096", "1000 page 128 1024",
  "100 collect list 8 64 0", "20 collect list 128 64 0", "4 collect list 1024 64 0", "1 collect list 1024 1024 0",
  "4 collect list 128 1024 0", "2 collect list 128 4096 0", "10 collect list 8 4096 0",
  "20 collect shuffled 128 64 0", "4 collect shuffled 128 1024 0", "2 collect shuffled 128 4096 0",
  "20 collect tree 128 64 0", "4 collect tree 128 1024 0", "2 collect tree 128 4096 0",
  "20 collect arrays 128 64 0", "4 collect arrays 128 1024 0", "2 collect arrays 128 4096 0",
  "20 collect dead 128 64 0", "4 collect dead 128 1024 0", "2 collect dead 128 4096 0",
  "4 collect list 128 1024 16", "4 collect list 128 1024 8192", "2 collect list 128 4096 8192", "20 collect list 128 64 8192",
  "20 collect ends 128 64 8192", "4 collect ends 128 1024 8192",
  "20 collect crowded 128 64 256", "4 collect crowded 128 1024 8192", "2 collect crowded 128 4096 8192",
  "20 collect remnants 32 1024 0", "20 collect remnants 128 64 0", "4 collect remnants 128 1024 0", "4 collect remnants 128 1024 256",
  "2 collect remnants 128 4096 0", "2 collect remnants 1024 1024 0",
  "100 collect full 8 64 0", "20 collect full 128 64 0", "4 collect full 128 1024 0",
  "100 collect scattered 8 64 0", "20 collect scattered 128 64 0", "4 collect scattered 128 1024 0", "4 collect scattered 128 1024 256",
};

static uint32_t number(char **argv, int at) { return (uint32_t)strtoul(argv[at], NULL, 10); }

int main(int argc, char **argv)
{
  size_t i;
  int calls;
  uint32_t repeats;
  if (argc == 2 && strcmp(argv[1], "list") == 0) {
    list_words();
    for (i = 0; i < sizeof workloads / sizeof *workloads; i++)
      puts(workloads[i]);
    return 0;
  }
  if (argc < 6)
    return fprintf(stderr, "bench list | bench MODE REPEATS WORDS..\n"), 2;
  calls = argv[1][0] != 'b';
  repeats = number(argv, 2);
  if (strcmp(argv[3], "fits") == 0)
    bench_fits(calls, repeats, number(argv, 4), number(argv, 5));
  else if (strcmp(argv[3], "page") == 0)
    bench_page(calls, repeats, number(argv, 4), number(argv, 5));
  else if (strcmp(argv[3], "collect") == 0 && argc == 8)
    bench_collect(argv[1], repeats, argv[4], number(argv, 5), number(argv, 6), number(argv, 7));
  else if (argc == 7)
    bench_word(argv[3], calls, repeats, number(argv, 4), number(argv, 5), argv[6]);
  else
    return fprintf(stderr, "no such workload\n"), 2;
  printf("%" PRIu64 "\n", sum);
  return 0;
}
