/* driver.c: runs a script of library calls and prints an answer a line: the script language of tests/c/vectors/README.md.

   Built over the archive, by the calls of include/fouterpin.h; over the model; and over bench/plain.c (over.h).
   Every slice that a call is lent lies on a mapping of its own between two pages that may not be touched, in turn right before the one
   behind and right behind the one before; the bytes between slice and page are canaries, looked at after each call. Hints are lent on
   memory that can't be written, and for load and look-up so is everything. After a refusal all memory must be as it was, and its number must be
   one that a call can give: 8 is none since Q-6. What load, store and look-up say of an address must be what the objects in memory say, as
   demand3.c finds them.

   driver [-3] [-t] < script
     -3  demand 3: after each accepted collection its pairing is searched for (demand3.c), and a heap that was sound must be sound
         after any call, and after an accepted start; every collection of a sound heap with good roots completes, and keeps no page where
         as many are free as the call for pages needed says
     -t  prints on standard error at the end how often each call gave each refusal, and with -3 how many collections kept pages, and in which ways
   Exit status 0; 1 where a check failed, after a line on standard error; 2 for a script that is none; 3 where a call touched memory that
   it was not lent, or wrote what it may only read. */
#define _POSIX_C_SOURCE 200809L
#define _DEFAULT_SOURCE
#include "demand3.h"
#include "over.h"

#include <inttypes.h>
#include <signal.h>
#include <stdio.h>
#include <stdlib.h>
#include <string.h>
#include <sys/mman.h>
#include <unistd.h>

/* How often each call gave each refusal: 0 to 7, and 10. */
enum { starts, allocs, loads, stores, looks, collects, pages_asked, befores_asked, needs_asked, calls };
static const char *const call_names[calls] = {"start", "alloc", "load", "store", "look", "collect", "page", "before", "need"};
enum { layout = 1, nothing_there = 4, unsound = 7, inside = 10, columns = 9 };
static uint64_t given[calls][columns];

static unsigned long line; /* of the script, from 1 */

static void fail(const char *what)
{
  fflush(stdout);
  fprintf(stderr, "driver: line %lu: %s\n", line, what);
  exit(1);
}

static void counted(int call, uint32_t refusal)
{
  if (refusal > unsound && refusal != inside)
    fail("a refusal that no call gives");
  given[call][refusal == inside ? columns - 1 : refusal]++;
}

/* A call touched memory that it was not lent. Only what a signal handler may call is called. */
static void touched(int signal_number)
{
  static const char text[] = "driver: memory that was not lent was touched, or memory lent for reading was written; line ";
  char digits[24];
  size_t at = sizeof digits;
  unsigned long n = line;
  (void)signal_number;
  digits[--at] = '\n';
  do
    digits[--at] = (char)('0' + n % 10);
  while ((n /= 10) != 0);
  if (write(2, text, sizeof text - 1) < 0 || write(2, digits + at, sizeof digits - at) < 0)
    _exit(4);
  _exit(3);
}

/* One lent slice, and its copy from before the call. */
typedef struct {
  unsigned char *map; /* a page that may not be touched, `room` bytes, another such page */
  size_t room, bytes, at;
  void *copy;
} slice;

static size_t os_page;

static unsigned char canary(size_t place)
{
  return (unsigned char)(0xa5 ^ (place * 37));
}

static void *data(const slice *s)
{
  return s->map + os_page + s->at;
}

static void allow(const slice *s, int protection)
{
  if (mprotect(s->map + os_page, s->room, protection) != 0)
    fail("mprotect");
}

/* New memory of that many bytes, all zero; at the end of its mapping where `at_end`, else at the beginning. */
static void lend(slice *s, size_t bytes, int at_end)
{
  size_t room = (bytes + os_page - 1) / os_page * os_page, i;
  unsigned char *inside;
  if (room == 0)
    room = os_page;
  if (s->map == NULL || s->room != room) {
    if (s->map != NULL && munmap(s->map, s->room + 2 * os_page) != 0)
      fail("munmap");
    s->map = mmap(NULL, room + 2 * os_page, PROT_NONE, MAP_PRIVATE | MAP_ANONYMOUS, -1, 0);
    if (s->map == MAP_FAILED)
      fail("mmap");
    s->room = room;
    s->copy = realloc(s->copy, room);
    if (s->copy == NULL)
      fail("realloc");
  }
  s->bytes = bytes;
  s->at = at_end ? room - bytes : 0;
  allow(s, PROT_READ | PROT_WRITE);
  inside = s->map + os_page;
  for (i = 0; i < room; i++)
    inside[i] = i >= s->at && i < s->at + bytes ? 0 : canary(i);
}

static void check_canaries(const slice *s)
{
  const unsigned char *inside = s->map + os_page;
  size_t i;
  for (i = 0; i < s->at; i++)
    if (inside[i] != canary(i))
      fail("a word before a lent slice was written");
  for (i = s->at + s->bytes; i < s->room; i++)
    if (inside[i] != canary(i))
      fail("a word behind a lent slice was written");
}

/* The state of the script language. */
enum { heap, labels, links, roots, hints, slices };
static slice lent[slices];
static record rec;
static int demand_3, table, at_end = 1;
static uint64_t checked_collections, checked_calls;

static uint32_t *words(int which) { return data(&lent[which]); }
static uint16_t *halves(int which) { return data(&lent[which]); }
static size_t count(int which) { return lent[which].bytes / (which == labels || which == links ? 2 : 4); }

static uint64_t hash_word(uint64_t hash, uint32_t word)
{
  int i;
  for (i = 0; i < 4; i++)
    hash = (hash ^ (word >> 8 * i & 255)) * UINT64_C(1099511628211);
  return hash;
}

/* FNV-1a over all that is lent, each element as 4 bytes. */
static uint64_t hash_all(void)
{
  uint64_t hash = UINT64_C(14695981039346656037);
  int which;
  size_t i;
  for (which = 0; which < slices; which++)
    for (i = 0; i < count(which); i++)
      hash = hash_word(hash, which == labels || which == links ? halves(which)[i] : words(which)[i]);
  return hash;
}

static demand3_memory memory_now(record r)
{
  demand3_memory m;
  m.heap = words(heap);
  m.heap_len = count(heap);
  m.labels = halves(labels);
  m.labels_len = count(labels);
  m.links = halves(links);
  m.links_len = count(links);
  m.roots = words(roots);
  m.roots_len = count(roots);
  m.page = r.page;
  m.pages = r.pages;
  m.label = r.label;
  m.opened = r.opened;
  m.fill = r.fill;
  return m;
}

static demand3_memory memory_before(record r)
{
  demand3_memory m = memory_now(r);
  m.heap = lent[heap].copy;
  m.labels = lent[labels].copy;
  m.links = lent[links].copy;
  m.roots = lent[roots].copy;
  return m;
}

static int sound_before;

static void before_call(void)
{
  int which;
  for (which = 0; which < slices; which++)
    memcpy(lent[which].copy, data(&lent[which]), lent[which].bytes);
  if (demand_3) {
    demand3_memory m = memory_now(rec);
    sound_before = demand3_unsound(&m) == NULL;
  }
  allow(&lent[hints], PROT_READ);
}

static int same(const slice *s)
{
  return memcmp(s->copy, data(s), s->bytes) == 0;
}

static int looks_up(int call) { return call == loads || call == stores || call == looks; }

/* What holds after every call; `made` is the record that came back. */
static void after_call(int call, uint32_t refusal, int all_zero, record made)
{
  int which;
  allow(&lent[hints], PROT_READ | PROT_WRITE);
  for (which = 0; which < slices; which++)
    check_canaries(&lent[which]);
  if (!same(&lent[hints]))
    fail("a hint was changed");
  if (refusal != 0) {
    for (which = 0; which < slices; which++)
      if (!same(&lent[which]))
        fail("a refused call changed memory");
    if (refusal == inside && !looks_up(call))
      fail("a call that looks up no address answered that it is inside an object");
    if (refusal != inside && !all_zero)
      fail("a refused call answered a value");
    if (made.page != rec.page || made.pages != rec.pages || made.label != rec.label || made.opened != rec.opened || made.fill != rec.fill)
      fail("a refused call changed the record");
  }
  if (demand_3 && (sound_before || (call == starts && refusal == 0))) {
    demand3_memory m = memory_now(made);
    const char *why = demand3_unsound(&m);
    if (why != NULL)
      fail(why);
    checked_calls++;
  }
}

/* an object starts at the address, or the address is inside the object that starts at s, or nothing is there. */
static void check_place(int call, uint32_t address, answer a)
{
  demand3_memory before = memory_before(rec);
  uint32_t s = demand3_object_at(&before, address);
  if (a.refusal == layout)
    return;
  if (a.refusal == nothing_there) {
    if (s != 0)
      fail("nothing was said to be where an object is");
  } else if (a.refusal == inside) {
    if (s == 0 || s == address)
      fail("an address was said to be inside an object that is not");
    if (a.value != s)
      fail("an address was said to be inside another object than it is");
  } else {
    if (s == 0 || s != address)
      fail("an address was taken for an object's start that is none");
    if (call == looks && a.value != address)
      fail("look-up answered another start than the address");
  }
}

static void print_answer(record r)
{
  printf(" %" PRIu32 " %" PRIu32 " %" PRIu32 " %" PRIu32 " %" PRIu32 " %016" PRIx64 "\n", r.page, r.pages, r.label, r.opened, r.fill,
         hash_all());
}

static void run_plain(int call, const uint32_t *n)
{
  answer a;
  int which, reads_only = call == loads || call == looks;
  before_call();
  if (reads_only)
    for (which = heap; which <= links; which++)
      allow(&lent[which], PROT_READ);
  if (call == starts)
    a = CALL(start)(words(heap), count(heap), halves(labels), count(labels), halves(links), count(links), rec, n[0], n[1]);
  else if (call == allocs)
    a = CALL(allocate)(words(heap), count(heap), halves(labels), count(labels), halves(links), count(links), rec, n[0], n[1]);
  else if (call == loads)
    a = CALL(load)(words(heap), count(heap), halves(labels), count(labels), halves(links), count(links), rec, n[0], n[1]);
  else if (call == looks)
    a = CALL(look_up)(words(heap), count(heap), halves(labels), count(labels), halves(links), count(links), rec, n[0]);
  else
    a = CALL(store)(words(heap), count(heap), halves(labels), count(labels), halves(links), count(links), rec, n[0], n[1], n[2]);
  if (reads_only)
    for (which = heap; which <= links; which++)
      allow(&lent[which], PROT_READ | PROT_WRITE);
  after_call(call, a.refusal, a.value == 0, a.record);
  if (looks_up(call))
    check_place(call, n[0], a);
  counted(call, a.refusal);
  rec = a.record;
  printf("%s %" PRIu32 " %" PRIu32, call_names[call], a.refusal, a.value);
  print_answer(rec);
}

/* Accepted collections of sound heaps: by the pages that they may need and those that are free, how the first compare with the second; and what
   is found of the pages that they kept (demand3_kept). */
enum {
  fewer, as_many, more, kept_none, kept_any, kept_several, copied_none,
  kept_opened, left_fillers, only_by_kept, with_unreached, with_fitting, with_own_copy, ways
};
static const char *const way_names[ways] = {
  "fewer-than-free", "as-many-as-free", "more-than-free", "more-and-kept-none", "kept", "kept-several", "kept-and-copied-none",
  "kept-the-open-page", "left-fillers", "kept-by-kept-pages", "kept-the-unreached", "kept-what-would-fit", "kept-beside-its-copy",
};
static uint64_t seen[ways];

/* Q-3's bound, since Q-6: where a collection may need no more pages than are free, it keeps none. The figure is the call's, the words are those
   found in memory; and the figure "never exceeds the old" one. */
static void check_room(collected c, demand3_kept kept)
{
  demand3_memory before = memory_before(rec);
  demand3_room room = demand3_room_for(&before, words(hints), count(hints));
  uint32_t needed = CALL(pages_needed)(room.words, rec.page), by_pages = room.unhinted == 0 ? 0 : 2 * room.unhinted - 1;
  if (needed > by_pages)
    fail("more pages are said to be needed than by the count of pages");
  if (needed <= room.free && c.kept != 0)
    fail("a page was kept where no more pages may be needed than are free");
  seen[needed < room.free ? fewer : needed == room.free ? as_many : more]++;
  seen[kept_none] += needed > room.free && kept.pages == 0;
  seen[kept_any] += kept.pages > 0;
  seen[kept_several] += kept.pages > 1;
  seen[copied_none] += kept.pages > 0 && c.objects == 0;
  seen[kept_opened] += kept.opened > 0;
  seen[left_fillers] += kept.fillers > 0;
  seen[only_by_kept] += kept.by_kept > 0;
  seen[with_unreached] += kept.unreached > 0;
  seen[with_fitting] += kept.would_fit > 0;
  seen[with_own_copy] += kept.own_copy > 0;
}

/* Demand 3 on a collection that was just made, before its record is taken over. */
static void check_collection(collected c)
{
  demand3_memory b = memory_before(rec), a = memory_now(c.record);
  demand3_kept kept;
  uint32_t counts[6];
  const char *why;
  if (c.refusal != 0) {
    if (sound_before && demand3_good_roots(&b))
      fail("a collection of a sound heap with good roots was refused");
    return;
  }
  counts[0] = c.hinted;
  counts[1] = c.taken;
  counts[2] = c.objects;
  counts[3] = c.words;
  counts[4] = c.kept;
  counts[5] = c.fillers;
  why = demand3_collection(&b, &a, words(hints), count(hints), counts, &kept);
  if (why != NULL)
    fail(why);
  check_room(c, kept);
  checked_collections++;
}

static void run_collect(void)
{
  collected c;
  before_call();
  c = CALL(collect)(words(heap), count(heap), halves(labels), count(labels), halves(links), count(links), rec, words(roots), count(roots),
                    words(hints), count(hints));
  after_call(collects, c.refusal, c.hinted == 0 && c.taken == 0 && c.objects == 0 && c.words == 0 && c.kept == 0 && c.fillers == 0, c.record);
  if (demand_3)
    check_collection(c);
  counted(collects, c.refusal);
  rec = c.record;
  printf("collect %" PRIu32 " %" PRIu32 " %" PRIu32 " %" PRIu32 " %" PRIu32 " %" PRIu32 " %" PRIu32, c.refusal, c.hinted, c.taken, c.objects,
         c.words, c.kept, c.fillers);
  print_answer(rec);
}

/* The numbers of a line, modulo 2^32, in an array that the next line uses again; it has room for a few more. */
static uint32_t *numbers;
static size_t numbers_len, numbers_room;

static void read_numbers(char *rest)
{
  numbers_len = 0;
  for (;;) {
    char *end;
    uint64_t n;
    if (numbers_len + 8 > numbers_room) {
      numbers_room = 2 * numbers_room + 64;
      numbers = realloc(numbers, numbers_room * sizeof *numbers);
      if (numbers == NULL)
        fail("realloc");
    }
    rest += strspn(rest, " \t\r\n");
    if (*rest == '\0')
      break;
    n = strtoull(rest, &end, rest[0] == '0' && (rest[1] == 'x' || rest[1] == 'X') ? 16 : 10);
    if (end == rest) {
      fprintf(stderr, "driver: line %lu: a number was awaited\n", line);
      exit(2);
    }
    rest = end;
    numbers[numbers_len++] = (uint32_t)n;
  }
}

static void set_words(int which)
{
  size_t i;
  for (i = 1; i < numbers_len; i++) {
    size_t at = (size_t)numbers[0] + i - 1;
    if (at >= count(which))
      continue;
    if (which == heap)
      words(which)[at] = numbers[i];
    else
      halves(which)[at] = (uint16_t)numbers[i];
  }
}

static void set_list(int which)
{
  size_t i;
  lend(&lent[which], numbers_len * 4, at_end);
  for (i = 0; i < numbers_len; i++)
    words(which)[i] = numbers[i];
}

static void print_all(void)
{
  static const char *const names[slices] = {"heap", "labels", "links", "roots", "hints"};
  int which;
  size_t i;
  printf("rec %" PRIu32 " %" PRIu32 " %" PRIu32 " %" PRIu32 " %" PRIu32 "\n", rec.page, rec.pages, rec.label, rec.opened, rec.fill);
  for (which = 0; which < slices; which++) {
    printf("%s", names[which]);
    for (i = 0; i < count(which); i++)
      printf(" %" PRIu32, which == labels || which == links ? halves(which)[i] : words(which)[i]);
    printf("\n");
  }
}

/* Runs one line; 0 for `quit`. */
static int run_line(char *text)
{
  size_t name_len = strcspn(text, " \t\r\n");
  char name[16];
  int call;
  if (name_len == 0 || text[0] == '#')
    return 1;
  if (name_len >= sizeof name)
    name_len = sizeof name - 1;
  memcpy(name, text, name_len);
  name[name_len] = '\0';
  read_numbers(text + name_len);
  if (strcmp(name, "rec") == 0) {
    uint32_t *fields[5];
    size_t i;
    fields[0] = &rec.page;
    fields[1] = &rec.pages;
    fields[2] = &rec.label;
    fields[3] = &rec.opened;
    fields[4] = &rec.fill;
    for (i = 0; i < 5 && i < numbers_len; i++)
      *fields[i] = numbers[i];
    return 1;
  }
  if (strcmp(name, "heap") == 0)
    return set_words(heap), 1;
  if (strcmp(name, "labels") == 0)
    return set_words(labels), 1;
  if (strcmp(name, "links") == 0)
    return set_words(links), 1;
  if (strcmp(name, "roots") == 0)
    return set_list(roots), 1;
  if (strcmp(name, "hints") == 0)
    return set_list(hints), 1;
  memset(numbers + numbers_len, 0, (numbers_len < 4 ? 4 - numbers_len : 0) * sizeof *numbers);
  if (strcmp(name, "mem") == 0) {
    at_end = !at_end;
    lend(&lent[heap], (size_t)numbers[0] * 4, at_end);
    lend(&lent[labels], (size_t)numbers[1] * 2, at_end);
    lend(&lent[links], (size_t)numbers[2] * 2, at_end);
    return 1;
  }
  for (call = starts; call <= looks; call++)
    if (strcmp(name, call_names[call]) == 0)
      return run_plain(call, numbers), 1;
  if (strcmp(name, "collect") == 0)
    return run_collect(), 1;
  if (strcmp(name, "page") == 0) {
    counted(pages_asked, 0);
    printf("page %" PRIu32 "\n", CALL(page_named)(numbers[0], numbers[1], numbers[2]));
    return 1;
  }
  if (strcmp(name, "before") == 0) {
    counted(befores_asked, 0);
    printf("before %" PRIu32 "\n", CALL(page_named_before)(numbers[0], numbers[1], numbers[2]));
    return 1;
  }
  if (strcmp(name, "need") == 0) {
    counted(needs_asked, 0);
    printf("need %" PRIu32 "\n", CALL(pages_needed)(numbers[0], numbers[1]));
    return 1;
  }
  if (strcmp(name, "dump") == 0)
    return print_all(), 1;
  if (strcmp(name, "quit") == 0)
    return 0;
  fprintf(stderr, "driver: line %lu: no such command\n", line);
  exit(2);
}

static void print_table(void)
{
  int call, column, way;
  fprintf(stderr, "table refusal 0 1 2 3 4 5 6 7 10\n");
  for (call = 0; call < calls; call++) {
    fprintf(stderr, "table %s", call_names[call]);
    for (column = 0; column < columns; column++)
      fprintf(stderr, " %" PRIu64, given[call][column]);
    fprintf(stderr, "\n");
  }
  fprintf(stderr, "table collections-searched %" PRIu64 "\ntable sound-after %" PRIu64 "\n", checked_collections, checked_calls);
  for (way = 0; way < ways; way++)
    fprintf(stderr, "table %s %" PRIu64 "\n", way_names[way], seen[way]);
}

int main(int argc, char **argv)
{
  char *text = NULL;
  size_t room = 0;
  struct sigaction action;
  int i;
  for (i = 1; i < argc; i++)
    if (strcmp(argv[i], "-3") == 0)
      demand_3 = 1;
    else if (strcmp(argv[i], "-t") == 0)
      table = 1;
    else
      return fprintf(stderr, "driver [-3] [-t] < script\n"), 2;
  memset(&action, 0, sizeof action);
  action.sa_handler = touched;
  sigaction(SIGSEGV, &action, NULL);
  sigaction(SIGBUS, &action, NULL);
  os_page = (size_t)sysconf(_SC_PAGESIZE);
  for (i = 0; i < slices; i++)
    lend(&lent[i], 0, at_end);
  while (getline(&text, &room, stdin) >= 0) {
    line++;
    if (!run_line(text))
      break;
  }
  if (table)
    print_table();
  free(text);
  return fflush(stdout) != 0 || ferror(stdout);
}
