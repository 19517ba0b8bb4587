/* clauses.c: shows of demand3.c that each of its clauses can fail. A collection worked out by hand passes; then one thing at a time is
   changed, before or after or in the counts, and the search must name the clause that this breaks. Exit status 0 if it always does.

   clauses       prints nothing but a tally, and each change that was judged otherwise

   Besides, for each word of that collection's heap before, and past it: in which object the word lies (demand3_object_at); and for some
   hints what there may be to copy, and where to (demand3_room_for); and whether roots are good (demand3_good_roots).

   Not provoked are clauses of demand 3 that follow from those tested before them: that a page in use was hinted or kept or holds a copy (a sound
   page in use has an object, each object has its pair or is a filler, and none from a hinted page has moved), that no hinted page is freed, that
   hinted objects do not move (each is first paired with its own address), that no reference followed is dangling (both heaps are sound), and that
   no page is taken where no word is to be copied (a page taken holds a copy).

   The heap: 8 pages of 8 words. Before, page 1 is hinted and holds A at 8 (one reference, to C; data 77) and B at 11 (data 5); page 2
   holds C at 16 (references to D and A; data 9) and D at 20 (a reference to itself); page 3 is open and holds E at 24, dead. Roots are
   C, nil and D. After, C is at 32 and D at 36, on page 4.

   The full heap, of Q-6: as many pages, of which 7 alone is free before.
     page 1  A at 8, 4 words, a reference to D, data 77 and 78; B at 12, 4 words, references to A and C, data 5
     page 2  C at 16, 8 words, a reference to E
     page 3  D at 24, 5 words, data 9 at its end; G at 29, 3 words, a reference to D; nothing refers to G
     page 4  E at 32, 1 word
     page 5  H at 40, 4 words, dead; open
     page 6  I at 48, 2 words, hinted
   Roots are A, D and B. A is copied to 56, on page 7. D does not fit behind it, and no page is free: page 3 is kept. B would fit, but copying is
   over: page 1 is kept, with a filler where A was. Its sweep leads to A's copy and to C: page 2 is kept, and for E page 4. Page 5 is freed. */
#include "demand3.h"

#include <stdio.h>
#include <string.h>

enum { page = 8, pages = 8, words = page * pages };

typedef struct {
  uint32_t heap[words];
  uint16_t labels[pages], links[pages];
  uint32_t roots[3];
  size_t roots_len;
  uint32_t record[5]; /* page, pages, label, opened, fill */
} memory;

static memory before, after;
static uint32_t hints[2], counts[6];
static int is_full;

static uint32_t header(uint32_t d, uint32_t p) { return (d + 1) * 65536 + 2 * p + 1; }

static void set_record(memory *m, uint32_t label, uint32_t opened, uint32_t fill)
{
  m->record[0] = page;
  m->record[1] = pages;
  m->record[2] = label;
  m->record[3] = opened;
  m->record[4] = fill;
}

static void put_a_and_b(memory *m, uint32_t a_to)
{
  m->heap[8] = header(2, 1);
  m->heap[9] = a_to;
  m->heap[10] = 77;
  m->heap[11] = header(1, 0);
  m->heap[12] = 5;
}

static void put_c_and_d(memory *m, uint32_t at)
{
  m->heap[at] = header(3, 2);
  m->heap[at + 1] = at + 4;
  m->heap[at + 2] = 8;
  m->heap[at + 3] = 9;
  m->heap[at + 4] = header(1, 1);
  m->heap[at + 5] = at + 4;
}

static void set_counts(uint32_t hinted, uint32_t taken, uint32_t objects, uint32_t copied, uint32_t kept, uint32_t fillers)
{
  counts[0] = hinted;
  counts[1] = taken;
  counts[2] = objects;
  counts[3] = copied;
  counts[4] = kept;
  counts[5] = fillers;
}

static void make_plain(void)
{
  memset(&before, 0, sizeof before);
  memset(&after, 0, sizeof after);
  put_a_and_b(&before, 16);
  put_c_and_d(&before, 16);
  before.heap[24] = header(1, 0);
  before.labels[1] = before.labels[2] = before.labels[3] = 1;
  before.roots[0] = 16;
  before.roots[2] = 20;
  before.roots_len = after.roots_len = 3;
  set_record(&before, 1, 3, 2);
  put_a_and_b(&after, 32);
  put_c_and_d(&after, 32);
  after.labels[1] = after.labels[4] = 2;
  after.roots[0] = 32;
  after.roots[2] = 36;
  set_record(&after, 2, 4, 6);
  hints[0] = 12;
  hints[1] = 0;
  set_counts(1, 1, 2, 6, 0, 0);
}

/* A at `at`, the others where they are before and after. */
static void put_full(memory *m, uint32_t at)
{
  m->heap[at] = header(3, 1);
  m->heap[at + 1] = 24;
  m->heap[at + 2] = 77;
  m->heap[at + 3] = 78;
  m->heap[12] = header(3, 2);
  m->heap[13] = at;
  m->heap[14] = 16;
  m->heap[15] = 5;
  m->heap[16] = header(7, 1);
  m->heap[17] = 32;
  m->heap[24] = header(4, 0);
  m->heap[28] = 9;
  m->heap[29] = header(2, 1);
  m->heap[30] = 24;
  m->heap[32] = header(0, 0);
  m->heap[48] = header(1, 0);
  m->roots[0] = at;
  m->roots[1] = 24;
  m->roots[2] = 12;
  m->roots_len = 3;
}

static void make_full(void)
{
  uint32_t i;
  memset(&before, 0, sizeof before);
  memset(&after, 0, sizeof after);
  put_full(&before, 8);
  before.heap[40] = header(3, 0);
  for (i = 1; i <= 6; i++)
    before.labels[i] = 1;
  set_record(&before, 1, 5, 4);
  put_full(&after, 56);
  after.heap[8] = header(3, 0); /* the filler */
  for (i = 1; i <= 7; i++)
    after.labels[i] = i == 5 ? 0 : 2;
  set_record(&after, 2, 7, 4);
  hints[0] = 49;
  hints[1] = 0;
  set_counts(1, 1, 1, 4, 4, 1);
}

static void make_case(void)
{
  if (is_full)
    make_full();
  else
    make_plain();
}

static demand3_memory lend(const memory *m)
{
  demand3_memory d;
  d.heap = m->heap;
  d.heap_len = words;
  d.labels = m->labels;
  d.labels_len = pages;
  d.links = m->links;
  d.links_len = pages;
  d.roots = m->roots;
  d.roots_len = m->roots_len;
  d.page = m->record[0];
  d.pages = m->record[1];
  d.label = m->record[2];
  d.opened = m->record[3];
  d.fill = m->record[4];
  return d;
}

static int judged, wrong;

/* In which object each word lies: those of pages 1 to 3, and in none elsewhere. */
static void places(void)
{
  static const uint32_t objects[] = {8, 8, 8, 11, 11, 0, 0, 0, 16, 16, 16, 16, 20, 20, 0, 0, 24, 24, 0, 0, 0, 0, 0, 0};
  demand3_memory b = lend(&before);
  uint32_t at, found, awaited;
  for (at = 0; at < words + 2; at++) {
    awaited = at >= page && at < 4 * page ? objects[at - page] : 0;
    found = demand3_object_at(&b, at);
    judged++;
    if (found != awaited) {
      printf("clauses: word %u lies in the object at %u, and %u was found\n", (unsigned)at, (unsigned)awaited, (unsigned)found);
      wrong++;
    }
  }
}

/* What these hints leave to copy: so many pages that no hint names, so many words in objects on them, and four free pages. */
static void room(uint32_t first, uint32_t second, uint32_t unhinted, uint32_t room_words)
{
  demand3_memory b = lend(&before);
  uint32_t named[2];
  demand3_room found;
  named[0] = first;
  named[1] = second;
  found = demand3_room_for(&b, named, 2);
  judged++;
  if (found.unhinted != unhinted || found.words != room_words || found.free != 4) {
    printf("clauses: with hints %u and %u, %u pages, %u words and %u free pages were found\n", (unsigned)first, (unsigned)second,
           (unsigned)found.unhinted, (unsigned)found.words, (unsigned)found.free);
    wrong++;
  }
}

/* Pages 1 to 3 hold 5, 6 and 2 words. A hint takes its page's words away, and those of the page that ends before it. */
static void rooms(void)
{
  room(0, 0, 3, 13);
  room(7, 40, 3, 13);
  room(8, 0, 2, 8);
  room(12, 9, 2, 8);
  room(16, 0, 1, 2);
  room(12, 23, 1, 2);
  room(24, 8, 0, 0);
  room(32, 0, 2, 11);
  room(words, 33, 3, 13);
}

/* Judges the case as it now stands, and makes it anew. */
static void expect(const char *clause)
{
  demand3_memory b = lend(&before), a = lend(&after);
  demand3_kept found;
  const char *why = demand3_collection(&b, &a, hints, 2, counts, &found);
  judged++;
  if (clause == NULL ? why != NULL : why == NULL || strcmp(why, clause) != 0) {
    printf("clauses: '%s' was awaited, and '%s' was found\n", clause == NULL ? "nothing" : clause, why == NULL ? "nothing" : why);
    wrong++;
  }
  make_case();
}

static void soundness(void)
{
  before.heap[3] = 1, expect("the heap before was not sound");
  after.record[0] = 9, expect("record: page size, pages or lengths");
  after.record[1] = 9, expect("record: page size, pages or lengths");
  after.record[2] = 3, expect("record: label");
  after.record[4] = 0, expect("record: open page and fill");
  after.record[4] = 9, expect("record: open page and fill");
  after.record[3] = 8, expect("record: open page and fill");
  after.record[3] = 0, expect("record: open page and fill");
  after.record[3] = 2, expect("record: the open page's label");
  after.labels[0] = 2, expect("page 0 is not free");
  after.labels[6] = 1, expect("a label is neither 0 nor current");
  after.labels[6] = 2, expect("a page in use has no object");
  after.record[4] = 5, expect("the open page's objects do not end at fill");
  after.heap[0] = 7, expect("a free page is not all zeros");
  after.heap[47] = 7, expect("a free page is not all zeros");
  after.heap[15] = 7, expect("a word behind a page's objects is not zero");
  after.heap[9] = 33, expect("a reference is neither 0 nor an object");
  after.heap[9] = 16, expect("a reference is neither 0 nor an object");
  after.heap[9] = words, expect("a reference is neither 0 nor an object");
  after.heap[36] = header(1, 2), expect("the open page's objects do not end at fill");
}

static void pairing(void)
{
  after.roots_len = 2, expect("the number of roots differs");
  after.heap[10] = 78, expect("data words of a pair differ");
  after.heap[35] = 10, expect("data words of a pair differ");
  after.heap[11] = header(0, 0), after.heap[12] = header(0, 0), expect("sizes of a pair differ");
  after.heap[32] = header(3, 1), expect("numbers of references of a pair differ");
  after.heap[9] = 0, expect("a reference is nil on one side only");
  after.heap[33] = 0, expect("a reference is nil on one side only");
  after.heap[9] = 36, expect("references break the pairing");
  after.roots[1] = 8, expect("a root is nil on one side only");
  after.roots[2] = 0, expect("a root is nil on one side only");
  after.roots[2] = 35, expect("a root is no object");
  after.roots[2] = 20, expect("a root is no object");
  after.roots[2] = 32, expect("roots break the pairing");
  before.roots[2] = 16, expect("roots break the pairing");
  /* E, which nothing reaches, is still there, behind D's copy */
  after.heap[38] = header(1, 0), after.record[4] = 8, expect("an object remains that was not reached");
  /* page 1 is freed and A moved */
  memset(after.heap + 8, 0, 5 * sizeof after.heap[0]), after.labels[1] = 0;
  after.heap[34] = 38, after.heap[38] = header(0, 0), after.record[4] = 7, expect("an object on a hinted page is gone");
  /* C's copy refers to B where it should to A */
  after.heap[34] = 11, expect("references break the pairing");
  /* a hint that names page 2 as well: C and D should have stayed */
  hints[1] = 23, expect("an object on a hinted page is gone");
  /* a hint just past page 3, on a page that is free: E should have stayed */
  hints[1] = 32, expect("an object on a hinted page is gone");
  /* hints just past the heap, whose last page is free, and at the first word of page 1: they name no other page in use */
  hints[1] = words, expect(NULL);
  hints[1] = 8, expect(NULL);
}

/* Makes B and A change places: each page in use is as sound as it was. */
static void hinted_objects_change_places(void)
{
  uint32_t a[3];
  memcpy(a, after.heap + 8, sizeof a);
  after.heap[8] = after.heap[11];
  after.heap[9] = after.heap[12];
  memcpy(after.heap + 10, a, sizeof a);
  after.heap[34] = 10;
  expect("an object on a hinted page is gone");
}

static void pages_and_counts(void)
{
  /* D's copy lies behind B, on the hinted page */
  after.heap[13] = header(1, 1), after.heap[14] = 13, after.heap[33] = 13, after.roots[2] = 13;
  after.heap[36] = after.heap[37] = 0, after.record[4] = 4, expect("a copy lies on a hinted page");
  /* the copies lie on page 2, where C and D were */
  memset(after.heap + 32, 0, 8 * sizeof after.heap[0]), put_c_and_d(&after, 16), after.heap[9] = 16, after.roots[0] = 16, after.roots[2] = 20;
  after.labels[4] = 0, after.labels[2] = 2, after.record[3] = 2, expect("a page was kept while one was free");
  counts[0] = 0, expect("the count of pages hinted is wrong");
  counts[1] = 2, expect("the count of pages taken is wrong");
  counts[2] = 3, expect("the count of objects copied is wrong");
  counts[3] = 4, expect("the count of words copied is wrong");
  counts[4] = 1, expect("the count of pages kept is wrong");
  counts[5] = 1, expect("the count of fillers is wrong");
  after.record[3] = 0, after.record[4] = 8, expect("the open page is none that was taken");
  after.record[3] = 1, after.record[4] = 5, expect("the open page is none that was taken");
  after.links[7] = 1, expect("a link is not 0");
  after.record[2] = 1, after.labels[1] = after.labels[4] = 1, expect("the label has not changed");
}

/* Objects of these words on pages 1, 2 and 3, each held by a root; after, each has a page of its own, 4 to 6, but for the first where a
   hint makes it stay. */
static void one_a_page(uint32_t first, uint32_t second, uint32_t third, int stays, const char *clause)
{
  uint32_t n[3], i;
  n[0] = first;
  n[1] = second;
  n[2] = third;
  memset(&before, 0, sizeof before);
  memset(&after, 0, sizeof after);
  before.roots_len = after.roots_len = 3;
  for (i = 0; i < 3; i++) {
    uint32_t to = stays && i == 0 ? 1 : 4 + i;
    before.heap[(1 + i) * page] = after.heap[to * page] = header(n[i] - 1, 0);
    before.labels[1 + i] = 1;
    after.labels[to] = 2;
    before.roots[i] = (1 + i) * page;
    after.roots[i] = to * page;
  }
  set_record(&before, 1, 3, third);
  set_record(&after, 2, 6, third);
  hints[0] = stays ? page : 0;
  if (stays)
    set_counts(1, 2, 2, second + third, 0, 0);
  else
    set_counts(0, 3, 3, first + second + third, 0, 0);
  expect(clause);
}

/* 9 words may take three pages, 8 words one; words on a hinted page are not among them. By pages, three might take five. And within the
   bound no object has a page of its own that fits the page before. */
static void more_than_the_bound(void)
{
  one_a_page(6, 3, 6, 0, NULL);
  one_a_page(6, 3, 5, 0, "an object began a page though it fits the one before");
  one_a_page(3, 3, 3, 0, "an object began a page though it fits the one before");
  one_a_page(2, 3, 3, 0, "more pages were taken than the bound");
  one_a_page(3, 3, 6, 1, NULL);
  one_a_page(3, 3, 3, 1, "more pages were taken than the bound");
}

/* pages that were kept. */
static void kept_pages(void)
{
  /* what stayed on a kept page: of G, which nothing refers to, a word, its reference, all of it; another object behind it */
  after.heap[31] = 1, expect("data words of a pair differ");
  after.heap[30] = 0, expect("a reference is nil on one side only");
  memset(after.heap + 29, 0, 3 * sizeof after.heap[0]), expect("an object on a kept page is gone");
  after.heap[33] = header(0, 0), expect("an object remains that was not reached");
  /* G's place is taken by what H, held by a root, has become */
  before.heap[40] = header(2, 1), before.heap[41] = 24, before.record[4] = 3;
  before.roots[2] = 40, after.roots[2] = 29, expect("kept objects break the pairing");
  /* E's page is freed, and C keeps a reference to it */
  after.heap[32] = 0, after.labels[4] = 0, expect("a reference is neither 0 nor an object");
  /* H's page is kept too */
  after.heap[40] = header(3, 0), after.labels[5] = 2, counts[4] = 5, expect("a page was kept that nothing reaches");
  /* E, which B reaches by way of C, is copied behind A */
  after.heap[60] = header(0, 0), after.heap[17] = 60, after.heap[32] = 0, after.labels[4] = 0, after.record[4] = 5;
  set_counts(1, 1, 2, 5, 3, 1), expect("an object was copied that only kept pages reach");
  /* B, in a root cell, is copied behind A though page 3 is kept by then. That is wrong by the order of the steps, which demand 3 does not
     speak of: it lets this pass (docs/DECISIONS.md) */
  memcpy(after.heap + 60, after.heap + 12, 4 * sizeof after.heap[0]), memset(after.heap + 8, 0, 8 * sizeof after.heap[0]);
  after.labels[1] = 0, after.roots[2] = 60, after.record[4] = 8, set_counts(1, 1, 2, 8, 3, 0), expect(NULL);
  /* page 5 is free before and after */
  before.heap[40] = 0, before.labels[5] = 0, before.record[3] = 0, before.record[4] = 8, expect("a page was kept while one was free");
  /* D is a word shorter, and G begins where it ends: the copy of D would have fit */
  before.heap[24] = after.heap[24] = header(3, 0), before.heap[28] = after.heap[28] = header(3, 1);
  before.heap[29] = after.heap[29] = 24, before.heap[30] = after.heap[30] = 0, expect("a page was kept for a copy that would have fit");
  /* A's copy lies behind E, and page 7 is free */
  memset(after.heap + 56, 0, 4 * sizeof after.heap[0]), after.labels[7] = 0, put_full(&after, 33), after.record[3] = 4, after.record[4] = 5;
  expect("a copy lies on a kept page");
  counts[1] = 5, expect("the count of pages taken is wrong");
  counts[4] = 0, expect("the count of pages kept is wrong");
  counts[5] = 0, expect("the count of fillers is wrong");
  after.record[3] = 3, after.record[4] = 8, expect("the open page is none that was taken");
}

static void fillers(void)
{
  /* a word shorter, with another behind it; to the page's end, so that B is gone; with a reference, nil; A itself; with A's first word, and its last */
  after.heap[8] = header(2, 0), after.heap[11] = header(0, 0), expect("a filler has another length");
  after.heap[8] = header(7, 0), memset(after.heap + 12, 0, 4 * sizeof after.heap[0]), expect("a root is no object");
  after.heap[8] = header(3, 1), expect("a filler has references");
  after.heap[8] = header(3, 1), after.heap[9] = 24, after.heap[10] = 77, after.heap[11] = 78, expect("a filler has references");
  after.heap[9] = 24, expect("a filler is not all zeros");
  after.heap[11] = 78, expect("a filler is not all zeros");
  /* B, which stayed, and a root lead to A's old place */
  after.heap[13] = 8, expect("references break the pairing");
  after.roots[0] = 8, expect("numbers of references of a pair differ");
  /* H, which has the filler's form, is held by a root, and has become the filler */
  before.roots[1] = 40, after.roots[1] = 8, expect("a filler was reached");
}

/* What is told of a collection that kept pages. */
static void tallies(void)
{
  static const uint32_t awaited[] = {4, 0, 1, 2, 1, 3, 1};
  demand3_memory b = lend(&before), a = lend(&after);
  demand3_kept found;
  uint32_t told[7], i;
  demand3_collection(&b, &a, hints, 2, counts, &found);
  told[0] = found.pages;
  told[1] = found.opened;
  told[2] = found.fillers;
  told[3] = found.by_kept;
  told[4] = found.unreached;
  told[5] = found.would_fit;
  told[6] = found.own_copy;
  for (i = 0; i < 7; i++) {
    judged++;
    if (told[i] != awaited[i]) {
      printf("clauses: %u was awaited of the tally's number %u, and %u was found\n", (unsigned)awaited[i], (unsigned)i, (unsigned)told[i]);
      wrong++;
    }
  }
}

/* Roots before, each with this word for the last of them: nil, a start, inside an object, behind one, on a free page, past the heap. */
static void good_roots(void)
{
  static const uint32_t cells[] = {0, 8, 16, 24, 9, 13, 32, words}, good = 4;
  uint32_t i;
  for (i = 0; i < sizeof cells / sizeof *cells; i++) {
    demand3_memory b;
    before.roots[2] = cells[i];
    b = lend(&before);
    judged++;
    if (demand3_good_roots(&b) != (i < good)) {
      printf("clauses: root %u was judged wrongly\n", (unsigned)cells[i]);
      wrong++;
    }
  }
  make_case();
}

int main(void)
{
  make_case();
  places();
  rooms();
  good_roots();
  expect(NULL);
  soundness();
  pairing();
  hinted_objects_change_places();
  pages_and_counts();
  more_than_the_bound();
  expect(NULL);
  is_full = 1;
  make_case();
  tallies();
  expect(NULL);
  kept_pages();
  fillers();
  expect(NULL);
  printf("clauses: %d cases judged, %d wrongly\n", judged, wrong);
  return wrong != 0;
}
