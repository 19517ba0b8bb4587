/* leaves_off.c: look-up, load and store leave off walking a page once the address is met or passed. No answer shows what they read, and no
   contract says it; memory that may not be touched does.

   Built over the archive; over bench/plain.c; and over the model, which walks to the stop and so must fail here (over.h).
   The heap is lent whole, but it lies across a border behind which nothing may be touched. The border falls on page 2, behind each of its
   words in turn. Every question that the headers before the border settle is asked, of addresses behind it too. What the answers are is known
   from how page 2 was made.

   leaves_off [PART]   PART look, load, store or value (of a reference that is stored) alone, else all four
   Exit status 0; 1 for a wrong answer; 3 where memory behind the border was touched; 4 for any other trouble; each after a line on standard
   error. */
#define _POSIX_C_SOURCE 200809L
#define _DEFAULT_SOURCE
#include "over.h"

#include <inttypes.h>
#include <signal.h>
#include <stdio.h>
#include <stdlib.h>
#include <string.h>
#include <sys/mman.h>
#include <unistd.h>

enum { look, load, store, value, parts };
static const char *const part_names[parts] = {"look", "load", "store", "value"};
static int wanted[parts];
enum { nothing_there = 4, index_too_high = 5, bad_reference = 6, inside = 10 };

/* There are so many bytes on each side of the border, and its address is a multiple of them: thus of every usual size of a system's pages. */
enum { side = 65536 };
static uint32_t *border;

enum { pages = 4, most_page = 1024 };
static uint32_t *heap;
static uint16_t labels[pages] = {0, 1, 1, 1}, links[pages];
static record rec;

#define LENT heap, (size_t)rec.page *pages, labels, pages, links, pages, rec

/* Page 1 has one object, as long as the page, which references are stored in: it starts at `holder`. Page 2 starts at `first`; the rest is by
   places on it: its words; its walk's stop; the last place that a walk to a word must read, the header of its object or, from the stop on, the
   stop; and how many of its words are before the border. */
static uint32_t holder, first, made[most_page], stop, last_read[most_page], before;

static void fault(int signal_number, siginfo_t *info, void *context)
{
  static const char behind[] = "leaves_off: memory behind the border was touched\n", elsewhere[] = "leaves_off: a fault elsewhere\n";
  int is_behind = (uintptr_t)info->si_addr - (uintptr_t)border < side;
  (void)signal_number;
  (void)context;
  if (write(2, is_behind ? behind : elsewhere, (is_behind ? sizeof behind : sizeof elsewhere) - 1) < 0)
    _exit(4);
  _exit(is_behind ? 3 : 4);
}

static void trouble(const char *what)
{
  perror(what);
  exit(4);
}

static void expect(int part, uint32_t place, uint32_t got, uint32_t right, const char *what)
{
  if (got == right)
    return;
  fprintf(stderr, "leaves_off: %s at word %" PRIu32 " of page 2, P %" PRIu32 ", stop %" PRIu32 ", border at %" PRIu32, part_names[part], place,
          rec.page, stop, before);
  fprintf(stderr, ": %s %" PRIu32 ", not %" PRIu32 "\n", what, got, right);
  exit(1);
}

static void expect_answer(int part, uint32_t place, answer a, uint32_t refusal, uint32_t right)
{
  expect(part, place, a.refusal, refusal, "refusal");
  expect(part, place, a.value, right, "value");
}

/* Page 2 full of objects, of these sizes in turn, the last as long as there is room. Most payload words have a header's form, so that a walk
   which steps on one goes astray. */
static void make_page(void)
{
  static const uint32_t sizes[] = {1, 2, 3, 2, 17, 5, 1, 9, 4};
  uint32_t at, n, i, k = 0;
  for (at = 0; at < rec.page; at += n) {
    n = sizes[k++ % (sizeof sizes / sizeof *sizes)];
    if (n > rec.page - at)
      n = rec.page - at;
    for (i = 0; i < n; i++) {
      made[at + i] = (at + i) << 16 | 1;
      last_read[at + i] = at;
    }
    made[at] = n << 16 | n / 2 << 1 | 1;
  }
  stop = rec.page;
}

/* A word in the place of a header that is none, in one of four ways: even, no words, more words than the page has, more references than payload
   words. What is behind stays. */
static void stop_page(uint32_t at, uint32_t way)
{
  uint32_t n = made[at] >> 16, i;
  made[at] = way == 0 ? made[at] - 1 : way == 1 ? 1 : way == 2 ? (rec.page - at + 1) << 16 | 1 : n << 16 | n << 1 | 1;
  for (i = at; i < rec.page; i++)
    last_read[i] = at;
  stop = at;
}

/* A store was accepted: the value is there. It is taken back. */
static void expect_stored(int part, uint32_t place, uint32_t address, uint32_t right, uint32_t old)
{
  expect(part, place, heap[address], right, "in memory");
  heap[address] = old;
}

/* Every call, at one word of page 2. */
static void try_word(uint32_t place)
{
  uint32_t address = first + place, i;
  uint32_t refusal = place >= stop ? nothing_there : last_read[place] < place ? inside : 0;
  uint32_t found = place >= stop ? 0 : first + last_read[place];
  uint32_t d = refusal == 0 ? (made[place] >> 16) - 1 : 0, p = (made[place] & 65535) / 2;
  if (wanted[look])
    expect_answer(look, place, CALL(look_up)(LENT, address), refusal, found);
  for (i = 0; i <= d; i++) {
    uint32_t at = place + 1 + i, given = i < p ? address : 77;
    uint32_t why = refusal != 0 ? refusal : i == d ? index_too_high : 0;
    if (why == 0 && at >= before)
      continue;
    if (wanted[load])
      expect_answer(load, place, CALL(load)(LENT, address, i), why, refusal != 0 ? found : i == d ? 0 : made[at]);
    if (wanted[store]) {
      expect_answer(store, place, CALL(store)(LENT, address, i, given), why, refusal != 0 ? found : 0);
      if (why == 0)
        expect_stored(store, place, first + at, given, made[at]);
    }
  }
  if (wanted[value]) {
    expect_answer(value, place, CALL(store)(LENT, holder, 0, address), refusal != 0 ? bad_reference : 0, 0);
    if (refusal == 0)
      expect_stored(value, place, holder + 1, address, 0);
  }
}

/* The heap with that many words of page 2 before the border, and all that can be asked of it. */
static void try_page(uint32_t words)
{
  uint32_t place;
  before = words;
  heap = border - (first + before);
  if (mprotect(border, side, PROT_READ | PROT_WRITE) != 0)
    trouble("leaves_off: mprotect");
  memset(heap, 0, (size_t)rec.page * pages * sizeof *heap);
  heap[holder] = rec.page << 16 | 1 << 1 | 1;
  memcpy(heap + first, made, rec.page * sizeof *heap);
  if (mprotect(border, side, PROT_NONE) != 0)
    trouble("leaves_off: mprotect");
  for (place = 0; place < rec.page; place++)
    if (last_read[place] < before)
      try_word(place);
}

int main(int argc, char **argv)
{
  struct sigaction action;
  unsigned char *map;
  uint32_t i, way = 0;
  int part, any = 0;
  for (part = 0; part < parts; part++) {
    wanted[part] = argc == 1 || (argc == 2 && strcmp(argv[1], part_names[part]) == 0);
    any |= wanted[part];
  }
  if (!any)
    return fprintf(stderr, "leaves_off [look|load|store|value]\n"), 4;
  memset(&action, 0, sizeof action);
  action.sa_sigaction = fault;
  action.sa_flags = SA_SIGINFO;
  sigaction(SIGSEGV, &action, NULL);
  sigaction(SIGBUS, &action, NULL);
  map = mmap(NULL, 3 * side, PROT_READ | PROT_WRITE, MAP_PRIVATE | MAP_ANONYMOUS, -1, 0);
  if (map == MAP_FAILED)
    trouble("leaves_off: mmap");
  border = (uint32_t *)(((uintptr_t)map + 2 * side - 1) / side * side);
  rec.pages = pages;
  rec.label = 1;
  for (rec.page = 8; rec.page <= most_page; rec.page *= 2) {
    rec.fill = rec.page;
    holder = rec.page;
    first = 2 * rec.page;
    make_page();
    for (i = 1; i <= rec.page; i++)
      try_page(i);
    for (i = 0; i < rec.page; i++) {
      make_page();
      if (last_read[i] == i) {
        stop_page(i, way++ % 4);
        try_page(i + 1);
      }
    }
  }
  return 0;
}
