/* twice.c: two collections in a row. After a collection, at once another with the resulting roots and the same hints. Where the first kept
   no page for room, no hint names a page that the first took, and the second keeps none either, the same objects remain, up to the pairing,
   and pages taken, objects copied and words copied are the same numbers. Each of the three hypotheses is needed.

   Built over the archive; over the model; and over bench/plain.c (over.h). The expected output is twice.out.
   Every heap is an honest one: it was made from a start by allocate, store and collect, and its roots hold what these answered. The hypotheses are
   judged by what a caller sees of the calls: the counts, the labels, and which pages a word names.

   Printed first are small heaps, with the six counts of both collections: one on which all three hypotheses hold, and then at least one for each of
   them on which it alone fails, and the numbers differ. Then pairs of collections on heaps made by chance are counted: where the hypotheses hold
   the claim is checked, with demand 3's pairing (demand3.c); elsewhere, that the second was accepted as the first was.

   twice [FAULT]   FAULT is planted into the pairs made by chance, one of
     page, copy, word, filler
               the second is credited with one more page taken, object copied, word copied or filler
     refused   the second is called with a root that is no object's address
     hints     the second is called without the first hint word that names a page in use
     first     the claim is made of a first that kept pages, too
     remains   the same, but only what remains is looked at, and not the numbers: fillers do not remain
     taken     the claim is made where hints name pages taken by the first, too
     second    the claim is made of a second that kept pages, too
     object    a data word is another after the second
     added     an object more is there after the second
     lost      an object more is there after the first
   Exit status 0; 3 where a check failed, after a line on standard error that says which; 1 for any other trouble. */
#include "demand3.h"
#include "over.h"

#include <inttypes.h>
#include <stdio.h>
#include <stdlib.h>
#include <string.h>

enum { most_page = 64, most_pages = 40, most_roots = 60, most_hints = 6 };
enum { pairs_wanted = 6000 };
enum { collect_first = 3 };

enum {
  no_fault, more_pages, more_copies, more_words, more_fillers, refused, other_hints, any_first, only_remains, any_hints, any_second,
  other_word, object_added, object_lost, faults
};
static const char *const fault_names[faults] = {"", "page", "copy", "word", "filler", "refused", "hints", "first", "remains", "taken", "second",
                                                "object", "added", "lost"};
static int fault;

/* What a caller has between two calls, its hints aside. */
typedef struct {
  uint32_t heap[most_page * most_pages];
  uint16_t labels[most_pages], links[most_pages];
  uint32_t roots[most_roots];
  record rec;
} memory;

/* What the calls are lent; and copies of it, from before the first collection of a pair, between the two and after the second. */
static memory now, before, between, after;
static uint32_t hints[most_hints];
static size_t roots_len, hints_len;
static int kept_earlier; /* a collection of this heap has kept pages */

#define LENT now.heap, (size_t)now.rec.page *now.rec.pages, now.labels, now.rec.pages, now.links, now.rec.pages, now.rec

static uint32_t pair_number; /* of those made by chance, from 1; 0 on the small heaps */

static void fail(const char *check, const char *how)
{
  fflush(stdout);
  fprintf(stderr, "twice: pair %" PRIu32 ": %s: %s\n", pair_number, check, how);
  exit(3);
}

static void check_same(const char *what, uint32_t first, uint32_t second)
{
  char how[40];
  if (first == second)
    return;
  snprintf(how, sizeof how, "%" PRIu32 ", then %" PRIu32, first, second);
  fail(what, how);
}

static void trouble(const char *call, uint32_t refusal)
{
  fprintf(stderr, "twice: pair %" PRIu32 ": %s was refused with %" PRIu32 "\n", pair_number, call, refusal);
  exit(1);
}

/* The calls, on a heap that is honest: what is refused here is trouble. */
static uint32_t accepted(answer a, const char *call)
{
  if (a.refusal != 0)
    trouble(call, a.refusal);
  now.rec = a.record;
  return a.value;
}

static void begin(uint32_t page, uint32_t pages, size_t cells)
{
  memset(&now, 0, sizeof now);
  now.rec.page = page;
  now.rec.pages = pages;
  roots_len = cells;
  hints_len = 0;
  kept_earlier = 0;
  accepted(CALL(start)(LENT, page, pages), "start");
}

/* An object of that many words, its header among them, the first `references` behind it references. */
static uint32_t make(uint32_t words, uint32_t references)
{
  return accepted(CALL(allocate)(LENT, words - 1, references), "allocate");
}

static void put(uint32_t object, uint32_t index, uint32_t value)
{
  accepted(CALL(store)(LENT, object, index, value), "store");
}

static collected collect(void)
{
  collected c = CALL(collect)(LENT, now.roots, roots_len, hints, hints_len);
  now.rec = c.record;
  return c;
}

static void collect_between_pairs(void)
{
  collected c = collect();
  if (c.refusal != 0)
    trouble("collect", c.refusal);
  kept_earlier |= c.kept != 0;
}

static uint32_t words_at(const memory *m, uint32_t object) { return m->heap[object] >> 16; }
static uint32_t references_at(const memory *m, uint32_t object) { return (m->heap[object] & 0xffff) >> 1; }

/* The hypotheses, by how each fails. */
enum { first_kept, hint_on_taken, second_kept, hypotheses };
static const char *const failures[hypotheses] = {"the first kept a page", "a hint names a page taken by the first", "the second kept a page"};

typedef struct {
  collected first, second;
  int fails[hypotheses];
  int only_before; /* a hint names a page taken by the first, but each that does does so by the word before it */
} pair;

static int taken_by_first(uint32_t page) { return before.labels[page] == 0 && between.labels[page] != 0; }

static void judge_hints(pair *p)
{
  int own = 0, one_before = 0;
  size_t i;
  for (i = 0; i < hints_len; i++) {
    own |= taken_by_first(CALL(page_named)(hints[i], now.rec.page, now.rec.pages));
    one_before |= taken_by_first(CALL(page_named_before)(hints[i], now.rec.page, now.rec.pages));
  }
  p->fails[hint_on_taken] = own || one_before;
  p->only_before = one_before && !own;
}

static int names_page_in_use(uint32_t word)
{
  return now.labels[CALL(page_named)(word, now.rec.page, now.rec.pages)] != 0 ||
         now.labels[CALL(page_named_before)(word, now.rec.page, now.rec.pages)] != 0;
}

/* The second collection, with the first hint word that names a page in use left out, and put back after. */
static collected collect_with_other_hints(void)
{
  uint32_t given[most_hints];
  size_t given_len = hints_len, i = 0;
  collected c;
  while (i < hints_len && !names_page_in_use(hints[i]))
    i++;
  memcpy(given, hints, sizeof given);
  if (i < hints_len) {
    hints_len--;
    memmove(hints + i, hints + i + 1, (hints_len - i) * sizeof *hints);
  }
  c = collect();
  memcpy(hints, given, sizeof given);
  hints_len = given_len;
  return c;
}

/* Refusals first: every collection of a sound heap with good roots completes, whatever else fails. */
static pair collect_twice(void)
{
  pair p;
  before = now;
  p.first = collect();
  if (p.first.refusal != 0)
    fail("refusal", "the first was refused");
  between = now;
  if (fault == refused)
    now.roots[0] = 1;
  p.second = fault == other_hints ? collect_with_other_hints() : collect();
  if (p.second.refusal != 0)
    fail("refusal", "the second was refused");
  after = now;
  p.second.taken += fault == more_pages;
  p.second.objects += fault == more_copies;
  p.second.words += fault == more_words;
  p.second.fillers += fault == more_fillers;
  p.fails[first_kept] = p.first.kept != 0;
  judge_hints(&p);
  p.fails[second_kept] = p.second.kept != 0;
  return p;
}

static int numbers_differ(const pair *p)
{
  return p->first.taken != p->second.taken || p->first.objects != p->second.objects || p->first.words != p->second.words;
}

/* How many hypotheses fail, and the last of them that does. */
static int failing(const pair *p, int *which)
{
  int h, n = 0;
  for (h = 0; h < hypotheses; h++)
    if (p->fails[h]) {
      *which = h;
      n++;
    }
  return n;
}

/* The hypothesis that the planted fault drops. */
static int dropped(void)
{
  switch (fault) {
  case any_first: case only_remains: return first_kept;
  case any_hints: return hint_on_taken;
  case any_second: return second_kept;
  default: return hypotheses;
  }
}

/* The claim is made of this pair. */
static int claimed(const pair *p)
{
  int which = hypotheses, n = failing(p, &which);
  return n == 0 || (n == 1 && which == dropped());
}

static void check_numbers(const pair *p)
{
  check_same("pages hinted", p->first.hinted, p->second.hinted);
  check_same("pages taken", p->first.taken, p->second.taken);
  check_same("objects copied", p->first.objects, p->second.objects);
  check_same("words copied", p->first.words, p->second.words);
  if (p->first.fillers != 0 || p->second.fillers != 0)
    fail("fillers", "there are some");
}

static demand3_memory view(const memory *m)
{
  demand3_memory v;
  v.heap = m->heap;
  v.heap_len = (size_t)m->rec.page * m->rec.pages;
  v.labels = m->labels;
  v.links = m->links;
  v.labels_len = v.links_len = v.pages = m->rec.pages;
  v.roots = m->roots;
  v.roots_len = roots_len;
  v.page = m->rec.page;
  v.label = m->rec.label;
  v.opened = m->rec.opened;
  v.fill = m->rec.fill;
  return v;
}

/* The next object of a sound heap behind that at `at`, or where `at` is 0 the first; 0 if there is none. */
static uint32_t next_object(const memory *m, uint32_t at)
{
  uint32_t page = at / m->rec.page;
  if (at != 0) {
    at += words_at(m, at);
    if (at % m->rec.page != 0 && m->heap[at] != 0)
      return at;
  }
  for (page++; page < m->rec.pages; page++)
    if (m->labels[page] != 0)
      return page * m->rec.page;
  return 0;
}

static uint32_t objects_in(const memory *m)
{
  uint32_t at, n = 0;
  for (at = next_object(m, 0); at != 0; at = next_object(m, at))
    n++;
  return n;
}

/* The pairing is demand 3's, of the second collection: one to one, and each object after it has its pair. Where there were as many objects
   before it, each of them has its pair too, and none was lost. */
static void check_objects(const pair *p)
{
  demand3_memory a = view(&between), b = view(&after);
  demand3_kept found;
  uint32_t counts[6];
  const char *why;
  counts[0] = p->second.hinted;
  counts[1] = p->second.taken;
  counts[2] = p->second.objects;
  counts[3] = p->second.words;
  counts[4] = p->second.kept;
  counts[5] = p->second.fillers;
  why = demand3_collection(&a, &b, hints, hints_len, counts, &found);
  if (why != NULL)
    fail("pairing", why);
  check_same("objects that remain", objects_in(&between), objects_in(&after));
}

/* The last word of some object, if it is a data word, becomes another. */
static void plant_word(memory *m)
{
  uint32_t at;
  for (at = next_object(m, 0); at != 0; at = next_object(m, at))
    if (words_at(m, at) > references_at(m, at) + 1) {
      m->heap[at + words_at(m, at) - 1] ^= 1;
      return;
    }
}

/* An object of one word goes behind those on the open page, if there is room, as allocate would put it. Nothing refers to it. */
static void plant_object(memory *m)
{
  if (m->rec.fill < m->rec.page)
    m->heap[m->rec.opened * m->rec.page + m->rec.fill++] = 1 << 16 | 1;
}

static void check_claim(const pair *p)
{
  if (fault == other_word)
    plant_word(&after);
  if (fault == object_added)
    plant_object(&after);
  if (fault == object_lost)
    plant_object(&between);
  if (fault != only_remains)
    check_numbers(p);
  check_objects(p);
}

/* The small heaps: P is 8. */

/* Prints the heap's name and the counts of a pair, of which exactly this hypothesis is to fail, or none. */
static void show(const char *name, int to_fail)
{
  pair p = collect_twice();
  const collected *c;
  int which = hypotheses, n = failing(&p, &which), second;
  printf("%s (P %" PRIu32 ", T %" PRIu32 ")\n", name, now.rec.page, now.rec.pages);
  for (second = 0; second < 2; second++) {
    c = second ? &p.second : &p.first;
    printf("  %-6s hinted %" PRIu32 ", taken %" PRIu32 ", objects %" PRIu32 ", words %" PRIu32 ", kept %" PRIu32 ", fillers %" PRIu32 "\n",
           second ? "second" : "first", c->hinted, c->taken, c->objects, c->words, c->kept, c->fillers);
  }
  if (which != to_fail || n > 1)
    fail(name, "the hypotheses hold or fail otherwise");
  if (n == 0)
    check_claim(&p);
  else if (!numbers_differ(&p))
    fail(name, "the numbers are the same");
  printf("  %s: the numbers %s\n", n == 0 ? "all three hold" : failures[which], n == 0 ? "are the same, and the same objects remain" : "differ");
}

/* On page 1, which a hint names, A of 5 words and one of 3 that nothing refers to; on page 2, B of 5 and another such; on page 3, C of 5 and D of
   3. A refers to B, B to C and C to A; a root holds D. D and B go to one page, C to another, both times. */
static void all_hold(void)
{
  uint32_t a, b, c;
  begin(8, 9, 2);
  a = make(5, 1);
  make(3, 0);
  b = make(5, 1);
  make(3, 2);
  c = make(5, 2);
  now.roots[1] = make(3, 0);
  put(a, 0, b);
  put(b, 0, c);
  put(c, 1, a);
  put(a, 2, 71);
  put(b, 3, 72);
  put(now.roots[1], 1, 73);
  hints[hints_len++] = a + 2;
  show("a page hinted, objects copied to two", hypotheses);
}

/* Objects of 5, 3, 5 and 3 words fill pages 1 and 2. Copied in the order of the roots, 5, 5, 3, 3, they take three. */
static void two_full_pages(void)
{
  begin(8, 6, 5);
  now.roots[0] = make(5, 0);
  now.roots[3] = make(3, 0);
  now.roots[1] = make(5, 0);
  now.roots[4] = make(3, 0);
}

/* Allocate gives out about a third of the pages, so that it takes collections to fill a heap. With T below 6 it is one page, whose copies always
   have room on another: 6 is the least T on which a page is ever kept. Here the objects of two full pages go to pages 3, 4 and 5, and one of 5 words
   is put on page 5, behind 3. The next collection, with page 3 hinted, copies the two others of 5 words, to pages 1 and 2, and one of 3; the last
   one does not fit, and page 5 is kept. Page 4 alone is free, and two roots are left: of their objects the first collection of the pair copies one
   and keeps the other's page. Then three pages are free. */
static void first_keeps(void)
{
  two_full_pages();
  collect_between_pairs();
  now.roots[2] = make(5, 0);
  hints[hints_len++] = now.roots[0];
  collect_between_pairs();
  hints_len = 0;
  now.roots[2] = now.roots[3] = now.roots[4] = 0;
  show("two objects, one page free and three to be freed", first_kept);
}

/* An object on page 1 is copied to page 2, which a hint names: it names none in use at the first collection. */
static void hint_on_page_taken(uint32_t pages, uint32_t hint, const char *name)
{
  begin(8, pages, 1);
  now.roots[0] = make(5, 0);
  hints[hints_len++] = hint;
  show(name, hint_on_taken);
}

/* Three pages are taken for what was on two, and so two are left. */
static void second_keeps(void)
{
  two_full_pages();
  show("5, 3, 5 and 3 words, copied as 5, 5, 3, 3", second_kept);
}

static void small_heaps(void)
{
  all_hold();
  first_keeps();
  hint_on_page_taken(3, 2 * 8 + 4, "hint 20, on page 2");
  hint_on_page_taken(4, 3 * 8, "hint 24, just past page 2");
  second_keeps();
}

/* Heaps made by chance, the same on every machine: splitmix64. Where two numbers are drawn, the draws go by statements of their own. */
static uint64_t seed_state = 7;

static uint32_t below(uint32_t n)
{
  uint64_t z = seed_state += UINT64_C(0x9e3779b97f4a7c15);
  z = (z ^ z >> 30) * UINT64_C(0xbf58476d1ce4e5b9);
  z = (z ^ z >> 27) * UINT64_C(0x94d049bb133111eb);
  return (uint32_t)((z ^ z >> 31) >> 33) % n;
}

static int chance(uint32_t percent) { return below(100) < percent; }

static int tight; /* two objects fill a page, a long and a short one, so that copies in another order take more pages */

/* An object that a root holds, or 0 if there is none. */
static uint32_t a_root(void)
{
  size_t cell = below((uint32_t)roots_len), i;
  for (i = 0; i < roots_len && now.roots[cell] == 0; i++)
    cell = (cell + 1) % roots_len;
  return now.roots[cell];
}

static uint32_t some_size(void)
{
  uint32_t page = now.rec.page, left = page - now.rec.fill;
  if (tight)
    return left != 0 ? left : page / 2 + 1 + (chance(20) ? below(page / 4) : 0);
  return 1 + below(chance(60) ? 8 : page);
}

/* The object's references, to what roots hold, itself or nil; its data; and often a root's object refers to it in turn. */
static void fill_object(uint32_t object)
{
  uint32_t i, value, other;
  for (i = 0; i + 1 < words_at(&now, object); i++) {
    if (i < references_at(&now, object))
      value = chance(20) ? 0 : chance(10) ? object : a_root();
    else
      value = chance(30) ? a_root() : below(1 << 20); /* what looks like an address is data all the same */
    put(object, i, value);
  }
  other = a_root();
  if (other != 0 && references_at(&now, other) != 0 && chance(60))
    put(other, below(references_at(&now, other)), object);
}

/* One more object, into a root cell that is free if there is one. 0 where a collection is asked for first. */
static int add_object(void)
{
  uint32_t words = some_size(), references = chance(tight ? 75 : 30) ? 0 : below(words), cell = below((uint32_t)roots_len);
  answer a = CALL(allocate)(LENT, words - 1, references);
  size_t i;
  if (a.refusal == collect_first)
    return 0;
  accepted(a, "allocate");
  fill_object(a.value);
  for (i = 0; i < roots_len && now.roots[cell] != 0; i++)
    cell = (cell + 1) % (uint32_t)roots_len;
  now.roots[cell] = a.value;
  return 1;
}

static void add_objects(uint32_t most)
{
  while (most > 0 && add_object())
    most--;
}

/* Of the root cells so many are cleared; or now and then one comes to hold what another does. */
static void clear_roots(uint32_t percent)
{
  size_t i;
  for (i = 0; i < roots_len; i++)
    if (chance(percent))
      now.roots[i] = chance(90) ? 0 : a_root();
}

static uint32_t words_at_root(size_t cell) { return now.roots[cell] == 0 ? 0 : words_at(&now, now.roots[cell]); }

static void swap_roots(size_t i, size_t j)
{
  uint32_t kept = now.roots[i];
  now.roots[i] = now.roots[j];
  now.roots[j] = kept;
}

/* The longest objects first: so copies of two that filled a page take more pages, since the long ones have one each. */
static void order_by_length(void)
{
  size_t i, j;
  for (i = 1; i < roots_len; i++)
    for (j = i; j > 0 && words_at_root(j - 1) < words_at_root(j); j--)
      swap_roots(j - 1, j);
}

static void order_by_chance(void)
{
  size_t i;
  for (i = 1; i < roots_len; i++)
    swap_roots(i, below((uint32_t)i + 1));
}

/* On a free page, if there is one, mostly the lowest-numbered; or just past it. */
static uint32_t a_free_place(void)
{
  uint32_t page = 1;
  while (page < now.rec.pages - 1 && (now.labels[page] != 0 || chance(20)))
    page++;
  return page * now.rec.page + (chance(50) ? now.rec.page : below(now.rec.page));
}

/* Where `free_places` is 0, few are on free pages: such as are just past a page, and on the next. */
static uint32_t a_hint(int free_places)
{
  uint32_t page = now.rec.page, root = a_root(), kind = below(free_places ? 9 : 5);
  switch (kind) {
  case 0: return root;
  case 1: return root + below(page);
  case 2: return (root / page + 1) * page;
  case 3: return 4294967295u >> below(12); /* far past any heap here */
  case 4: return page * now.rec.pages - below(page);
  case 5: return below(page * now.rec.pages + 2);
  case 6: return root / page * page; /* the word before it is on the page before */
  default: return a_free_place();
  }
}

static void choose_hints(void)
{
  int free_places = chance(50);
  uint32_t n = chance(35) ? 0 : chance(40) ? 1 : below(most_hints + 1);
  for (hints_len = 0; hints_len < n; hints_len++)
    hints[hints_len] = a_hint(free_places);
}

static void begin_any(void)
{
  uint32_t page = chance(45) ? 8 : chance(55) ? 16 : chance(60) ? 32 : 64, pages;
  tight = chance(60);
  pages = tight ? 6 + 6 * below(chance(20) ? 6 : 3) : chance(50) ? 3 + below(12) : 3 + below(38);
  begin(page, pages, tight ? most_roots : 1 + below(30));
}

/* A time of calls on a heap: objects are made, roots change places and are cleared, and it is collected a few times. */
static void loose_calls(void)
{
  uint32_t rounds = below(3);
  add_objects(1 + below(60));
  while (rounds-- > 0) {
    choose_hints();
    order_by_chance();
    collect_between_pairs();
    add_objects(1 + below(20));
    if (chance(30))
      clear_roots(20);
  }
  if (chance(50))
    clear_roots(20 + below(70));
}

/* The same on a tight heap. Either allocate's share of it is full, and then copies may take more pages than they leave free. Or with all held it
   is collected until hardly a page is free and some are kept, and then much is let go of, so that many are free after the next collection. */
static void tight_calls(void)
{
  uint32_t rounds = chance(35) ? 0 : 3 + below(6);
  int fills = rounds != 0;
  add_objects(100);
  order_by_length();
  while (rounds-- > 0) {
    choose_hints();
    collect_between_pairs();
    add_objects(100);
    order_by_length();
  }
  if (fills)
    clear_roots(40 + below(40));
}

/* What came of the pairs. */
static uint32_t met, agreed, copied, hinted, took_several, after_keeping, only_before, one_fails[hypotheses], one_differs[hypotheses];

static void count(const pair *p)
{
  int which = hypotheses, n = failing(p, &which);
  if (n == 0) {
    met++;
    copied += p->first.objects != 0;
    hinted += p->first.hinted != 0;
    took_several += p->first.taken > 1;
    after_keeping += kept_earlier;
  }
  if (n == 1) {
    one_fails[which]++;
    one_differs[which] += numbers_differ(p);
    only_before += p->only_before;
  }
}

static void made_pairs(void)
{
  pair p;
  for (pair_number = 1; pair_number <= pairs_wanted; pair_number++) {
    if (pair_number == 1 || chance(60))
      begin_any();
    if (tight)
      tight_calls();
    else
      loose_calls();
    choose_hints();
    p = collect_twice();
    if (claimed(&p)) {
      check_claim(&p);
      agreed++;
    }
    count(&p);
    kept_earlier |= p.fails[first_kept] || p.fails[second_kept];
  }
}

static void print_table(void)
{
  int h;
  printf("pairs on heaps made by chance: %d\n", pairs_wanted);
  printf("  all three hold: %" PRIu32 "\n", met);
  printf("    the numbers are the same, and the same objects remain: %" PRIu32 "\n", agreed);
  printf("    something was copied: %" PRIu32 "\n", copied);
  printf("    more than one page was taken: %" PRIu32 "\n", took_several);
  printf("    a page was hinted: %" PRIu32 "\n", hinted);
  printf("    a collection before the pair had kept pages: %" PRIu32 "\n", after_keeping);
  for (h = 0; h < hypotheses; h++) {
    printf("  only one fails, %s: %" PRIu32 "\n    the numbers differ: %" PRIu32 "\n", failures[h], one_fails[h], one_differs[h]);
    if (h == hint_on_taken)
      printf("    it does so only by the word before it: %" PRIu32 "\n", only_before);
  }
}

int main(int argc, char **argv)
{
  int planted = argc == 1 ? no_fault : no_fault + 1;
  while (argc == 2 && planted < faults && strcmp(argv[1], fault_names[planted]) != 0)
    planted++;
  if (argc > 2 || planted == faults)
    return fprintf(stderr, "twice [FAULT]: page, copy, word, filler, refused, hints, first, remains, taken, second, object, added or lost\n"), 1;
  small_heaps();
  fault = planted;
  made_pairs();
  print_table();
  return fflush(stdout) != 0 || ferror(stdout);
}
