/* generate.c: makes scripts of library calls, for tests/c/driver.c.

   generate SEED CALLS > script      at least CALLS calls; the same seed gives the same script on every machine

   Episodes of seven kinds, in turn by chance: honest runs from a fresh start; sound heaps built directly; sound heaps of small remnants, with
   about as many words as there is room for; full heaps, whose collections keep pages; sound heaps with aimed damage to a header, a tail, a label,
   the record, a reference or a length; memory that is junk under a record that is not; and the calls on numbers. The generator keeps the state itself, by the model, so
   that it knows addresses to aim at; what the answers are is none of its business. Sizes are weighted to small, where every edge is near. */
#include "model.h"

#include <inttypes.h>
#include <stdio.h>
#include <stdlib.h>
#include <string.h>

static uint64_t seed_state;

/* splitmix64 */
static uint64_t next(void)
{
  uint64_t z = seed_state += UINT64_C(0x9e3779b97f4a7c15);
  z = (z ^ z >> 30) * UINT64_C(0xbf58476d1ce4e5b9);
  z = (z ^ z >> 27) * UINT64_C(0x94d049bb133111eb);
  return z ^ z >> 31;
}

static uint32_t below(uint32_t n) { return n == 0 ? 0 : (uint32_t)(next() >> 33) % n; }
static int chance(uint32_t percent) { return below(100) < percent; }
static uint32_t any_word(void) { return (uint32_t)next(); }

/* The state, as the driver will have it. */
enum { most_words = 65536 * 2, most_pages = 4100, most_list = 4200 };
static uint32_t heap[most_words + 64];
static uint16_t labels[most_pages + 64], links[most_pages + 64];
static size_t heap_len, labels_len, links_len;
static model_record rec;
static uint32_t true_page, true_pages; /* what memory was laid out for, whatever the record says by now */
static uint32_t roots[most_list], hints[most_list];
static size_t roots_len, hints_len;

/* Addresses to aim at: those of objects when the list was last made. */
static uint32_t objects[most_words];
static size_t objects_len;

static uint64_t calls_made;

/* The words of the object whose header stands at this place of a page that ends at `end`; 0 if none stands there. */
static uint32_t words_at(size_t at, size_t end)
{
  uint32_t n = heap[at] >> 16;
  return heap[at] % 2 == 0 || n == 0 || (heap[at] & 0xffff) / 2 > n - 1 || n > end - at ? 0 : n;
}

/* The walk over every page in use, for the list of objects. It reads a record that may be damaged, so it goes by the lengths. */
static void list_objects(void)
{
  size_t page, at;
  uint32_t n;
  objects_len = 0;
  if (rec.page == 0 || rec.page > 4096)
    return;
  for (page = 1; page < labels_len && (page + 1) * rec.page <= heap_len; page++) {
    size_t end = (page + 1) * rec.page;
    if (labels[page] == 0)
      continue;
    for (at = page * rec.page; at < end && (n = words_at(at, end)) != 0; at += n)
      objects[objects_len++] = (uint32_t)at;
  }
}

static uint32_t an_object(void)
{
  return objects_len == 0 ? 0 : objects[below((uint32_t)objects_len)];
}

/* In C the operands of a sum, and the two sides of an assignment, may be worked out in any order: where both draw a number, the draws go
   by statements of their own, so that a seed gives the same script by every compiler. */
static uint32_t inside_object(uint32_t page)
{
  uint32_t object = an_object();
  return object + below(page);
}

static uint32_t a_header(uint32_t most)
{
  uint32_t n = 1 + below(most);
  return n * 65536 + 2 * below(4) + 1;
}

/* A word near something: an edge of a page or of the heap, the inside of an object, or no such thing. */
static uint32_t near_word(void)
{
  uint32_t page = rec.page == 0 ? 8 : rec.page, edge = page * below((uint32_t)labels_len + 1);
  switch (below(9)) {
  case 0: return below((uint32_t)heap_len + 2);
  case 1: return (uint32_t)heap_len - 2 + below(4);
  case 2: return edge + below(2);
  case 3: return edge - 1;
  case 4: return below(page);
  case 5: return an_object() + 1;
  case 6: return inside_object(page);
  case 7: return an_object() - 1;
  default: return any_word();
  }
}

static uint32_t header_at(uint32_t address)
{
  return address < heap_len ? heap[address] : 0;
}

/* An address by where it lands: on an object's first word, the one behind, its last one or any; just past it, where another may start; at its
   page's stop, or in the tail that begins there; on a free page, on page 0, or past the heap. */
static uint32_t a_place(void)
{
  uint32_t page = rec.page == 0 || rec.page > 4096 ? 8 : rec.page, object = an_object(), words = header_at(object) >> 16;
  uint32_t end = object - object % page + page, stop = object, n;
  while (stop < end && (n = words_at(stop, end)) != 0)
    stop += n;
  switch (below(10)) {
  case 0: return object;
  case 1: return object + 1;
  case 2: return object + words - 1;
  case 3: return object + below(words);
  case 4: return object + words;
  case 5: return stop;
  case 6: return stop + below(end - stop);
  case 7:
    for (n = below((uint32_t)labels_len); n < labels_len && labels[n] != 0; n++)
      ;
    return n * page + below(page);
  case 8: return below(page);
  default: return (uint32_t)heap_len + below(3);
  }
}

static uint32_t an_address(uint32_t percent_good)
{
  if (chance(percent_good) && objects_len > 0)
    return an_object();
  return chance(60) ? a_place() : near_word();
}

static uint32_t a_reference(uint32_t percent_good)
{
  if (!chance(percent_good))
    return near_word();
  return chance(25) ? 0 : an_object();
}

/* A data word: what looks like an address or a header is of most interest. */
static uint32_t a_number(void)
{
  switch (below(5)) {
  case 0: return below(4);
  case 1: return an_object();
  case 2: return 2 * an_object();
  case 3: return a_header(9);
  default: return any_word();
  }
}

/* Printing. */
static void print_words(const char *name, size_t from, size_t to)
{
  size_t i;
  printf("%s %zu", name, from);
  for (i = from; i < to; i++)
    printf(" %" PRIu32, name[0] == 'h' ? heap[i] : name[1] == 'a' ? labels[i] : links[i]);
  printf("\n");
}

static void print_record(void)
{
  printf("rec %" PRIu32 " %" PRIu32 " %" PRIu32 " %" PRIu32 " %" PRIu32 "\n", rec.page, rec.pages, rec.label, rec.opened, rec.fill);
}

static int all_zero(const uint16_t *v, size_t n)
{
  while (n > 0)
    if (v[--n] != 0)
      return 0;
  return 1;
}

static void print_state(void)
{
  size_t at = 0, end, zeros;
  printf("mem %zu %zu %zu\n", heap_len, labels_len, links_len);
  while (at < heap_len) {
    if (heap[at] == 0) {
      at++;
      continue;
    }
    for (end = at, zeros = 0; end < heap_len && zeros < 8; end++)
      zeros = heap[end] == 0 ? zeros + 1 : 0;
    print_words("heap", at, end - zeros);
    at = end;
  }
  if (!all_zero(labels, labels_len))
    print_words("labels", 0, labels_len);
  if (!all_zero(links, links_len))
    print_words("links", 0, links_len);
  print_record();
}

static void print_list(const char *name, const uint32_t *list, size_t len)
{
  size_t i;
  printf("%s", name);
  for (i = 0; i < len; i++)
    printf(" %" PRIu32, list[i]);
  printf("\n");
}

/* The calls: printed, then made. */
static void do_start(uint32_t page, uint32_t pages)
{
  printf("start %" PRIu32 " %" PRIu32 "\n", page, pages);
  rec = model_start(heap, heap_len, labels, labels_len, links, links_len, rec, page, pages).record;
  calls_made++;
}

static uint32_t do_alloc(uint32_t d, uint32_t p)
{
  model_answer a;
  printf("alloc %" PRIu32 " %" PRIu32 "\n", d, p);
  a = model_allocate(heap, heap_len, labels, labels_len, links, links_len, rec, d, p);
  rec = a.record;
  calls_made++;
  if (a.refusal == 0 && objects_len < most_words)
    objects[objects_len++] = a.value;
  return a.refusal;
}

static void do_load(uint32_t address, uint32_t index)
{
  printf("load %" PRIu32 " %" PRIu32 "\n", address, index);
  calls_made++;
}

static void do_look(uint32_t address)
{
  printf("look %" PRIu32 "\n", address);
  calls_made++;
}

static void do_store(uint32_t address, uint32_t index, uint32_t value)
{
  printf("store %" PRIu32 " %" PRIu32 " %" PRIu32 "\n", address, index, value);
  rec = model_store(heap, heap_len, labels, labels_len, links, links_len, rec, address, index, value).record;
  calls_made++;
}

static void do_collect(void)
{
  print_list("roots", roots, roots_len);
  print_list("hints", hints, hints_len);
  printf("collect\n");
  rec = model_collect(heap, heap_len, labels, labels_len, links, links_len, rec, roots, roots_len, hints, hints_len).record;
  calls_made++;
  list_objects();
}

/* Arguments. */
static void some_alloc(uint32_t percent_good)
{
  uint32_t page = rec.page == 0 || rec.page > 4096 ? 8 : rec.page, d, p;
  switch (below(8)) {
  case 0: d = 0; break;
  case 1: d = page - 1; break;
  case 2: d = below(page); break;
  case 3: d = rec.fill < page ? page - rec.fill - 1 : below(3); break; /* fits exactly */
  case 4: d = rec.fill + 1 < page ? page - rec.fill : below(3); break; /* a word too long for the open page */
  default: d = below(page < 16 ? page : 8); break;
  }
  p = below(d + 1);
  if (chance(30))
    p = d;
  if (!chance(percent_good))
    switch (below(6)) {
    case 0: d = page; break;
    case 1: d = page + below(70000); break;
    case 2: p = d + 1; break;
    case 3: p = d + 1 + any_word() / 2; break;
    case 4: d = 4294967295u; p = below(2); break;
    default: d = any_word(); p = any_word(); break;
    }
  do_alloc(d, p);
}

static uint32_t an_index(uint32_t address, uint32_t percent_good)
{
  uint32_t d = (header_at(address) >> 16) - 1;
  if (chance(percent_good) && d > 0 && d < 1024)
    return below(d);
  switch (below(4)) {
  case 0: return d;
  case 1: return d + below(3);
  case 2: return below(20);
  default: return any_word();
  }
}

static void some_load(uint32_t percent_good)
{
  uint32_t address = an_address(percent_good);
  do_load(address, an_index(address, percent_good));
}

static void some_look(void)
{
  do_look(an_address(10));
}

static void some_store(uint32_t percent_good)
{
  uint32_t address = an_address(percent_good), index = an_index(address, percent_good);
  uint32_t refs = (header_at(address) & 0xffff) / 2;
  do_store(address, index, index < refs ? a_reference(percent_good) : a_number());
}

/* Every object is held by a root, in any order, if there are not too many. */
static void hold_everything(void)
{
  if (objects_len < 1000)
    for (roots_len = 0; roots_len < objects_len; roots_len++) {
      uint32_t swap = below((uint32_t)roots_len + 1);
      roots[roots_len] = objects[roots_len];
      roots[roots_len] = roots[swap];
      roots[swap] = objects[roots_len];
    }
}

/* Roots and hints: few or many. */
static void choose_roots(uint32_t percent_good)
{
  uint32_t bad = chance(percent_good) ? 0 : 1, i;
  roots_len = chance(10) ? 0 : chance(15) ? below(60) : below(7);
  for (i = 0; i < roots_len; i++)
    roots[i] = chance(20) ? 0 : i > 0 && chance(15) ? roots[below(i)] : an_object();
  if (chance(8))
    hold_everything();
  if (bad) {
    i = roots_len == 0 ? (uint32_t)roots_len++ : below((uint32_t)roots_len);
    roots[i] = near_word();
  }
}

static void choose_hints(void)
{
  uint32_t i, page = rec.page == 0 ? 8 : rec.page;
  hints_len = chance(30) ? 0 : chance(10) ? below(2 * (uint32_t)labels_len % 4000 + 1) : below(5);
  for (i = 0; i < hints_len; i++)
    hints[i] = chance(60) ? inside_object(page) : near_word();
}

static void some_collect(uint32_t percent_good)
{
  choose_roots(percent_good);
  choose_hints();
  do_collect();
}

/* P from 8 to 1,024 and T from 3 on, small for the most part. */
static void choose_size(uint32_t *page, uint32_t *pages)
{
  uint32_t r = below(100);
  *page = r < 55 ? 8 : r < 75 ? 16 : r < 85 ? 32 : r < 91 ? 64 : r < 95 ? 128 : r < 97 ? 256 : r < 99 ? 512 : 1024;
  *pages = *page >= 128 ? 3 + below(14) : chance(60) ? 3 + below(12) : 3 + below(62);
  if (below(400) == 0) { /* as many pages as there can be, and one more */
    *page = 8;
    *pages = 4095 + below(3);
  }
  if (chance(4)) { /* sizes that are none, with lengths that fit them */
    static const uint32_t bad[] = {1, 4, 4, 12, 2048};
    if (chance(50)) {
      *page = bad[below(5)];
      *pages = 3 + below(14);
    } else {
      *pages = 1 + below(2);
    }
  }
}

static void size_memory(uint32_t page, uint32_t pages)
{
  heap_len = (size_t)page * pages;
  if (heap_len > most_words || pages > most_pages) {
    fprintf(stderr, "generate: no room for %" PRIu32 " pages of %" PRIu32 " words\n", pages, page);
    exit(1);
  }
  labels_len = pages;
  links_len = pages;
  memset(heap, 0, sizeof heap);
  memset(labels, 0, sizeof labels);
  memset(links, 0, sizeof links);
  true_page = page;
  true_pages = pages;
  rec.page = page;
  rec.pages = pages;
  rec.label = 1;
  rec.opened = 0;
  rec.fill = page;
  objects_len = 0;
}

static void junk_links(void)
{
  size_t i;
  for (i = 0; i < links_len; i++)
    links[i] = (uint16_t)(chance(30) ? below((uint32_t)links_len) : any_word());
}

/* An honest run: a start on memory that held anything, then calls with mostly good arguments. */
static void honest(void)
{
  uint32_t page, pages, steps, i;
  choose_size(&page, &pages);
  size_memory(page, pages);
  if (chance(50)) {
    junk_links();
    for (i = 0; i < 12; i++) {
      uint32_t at = below((uint32_t)heap_len);
      heap[at] = any_word();
    }
    for (i = 0; i < pages; i++)
      labels[i] = (uint16_t)(chance(50) ? 0 : below(4));
    rec.page = any_word();
    rec.label = below(4);
  }
  if (chance(10)) {
    /* Words lent for a page, T and P: sizes that are none, with lengths that fit them; then what P 0 means, and that no other P means it. */
    static const uint32_t starts[][3] = {{8, 4097, 8}, {2048, 3, 2048}, {4, 3, 4}, {12, 4, 12}, {8, 2, 8}, {8, 0, 8},
                                         {64, 3, 0}, {128, 3, 0}, {128, 3, 128}, {64, 3, 4}};
    for (i = 0; i < sizeof starts / sizeof *starts; i++) {
      printf("mem %" PRIu32 " %" PRIu32 " %" PRIu32 "\nstart %" PRIu32 " %" PRIu32 "\n", starts[i][0] * starts[i][1], starts[i][1],
             starts[i][1], starts[i][2], starts[i][1]);
      calls_made++;
    }
  }
  print_state();
  if (chance(8)) {
    static const uint32_t bad_pages[] = {0, 1, 2, 4, 7, 12, 24, 1000, 2048, 4294967288u};
    do_start(bad_pages[below(10)], pages);
    do_start(page, chance(50) ? pages + 1 : pages - 1);
    i = any_word();
    do_start(i, any_word());
  }
  do_start(page == model_page_at_start(0) && chance(50) ? 0 : page, pages);
  objects_len = 0;
  steps = 30 + below(150);
  for (i = 0; i < steps; i++) {
    uint32_t r = below(100);
    if (r < 40)
      some_alloc(95);
    else if (r < 69)
      some_store(92);
    else if (r < 80)
      some_load(88);
    else if (r < 88)
      some_look();
    else {
      some_collect(96);
      if (chance(30)) { /* again, with everything held: pages are used up by and by */
        hold_everything();
        choose_hints();
        do_collect();
      }
    }
    if (chance(1) && chance(10))
      do_start(page, pages);
  }
}

/* A sound heap, made directly: each page in use full of objects to a random stop; where it is tight, full of objects of about half a
   page, which copies may pack much worse. So many percent of the references lead to an object of their own page. */
static int tight;
static uint32_t homely;

/* Objects of so many words together, at least one. */
static void fill_page(uint32_t which, uint32_t words)
{
  uint32_t at = which * rec.page, stop = at + words, n;
  do {
    uint32_t room = stop - at;
    n = chance(10) ? room : 1 + below(chance(70) ? 6 : rec.page);
    if (tight)
      n = rec.page / 2 - 1 + below(3);
    if (n > room)
      n = room;
    heap[at] = n * 65536 + 2 * (chance(50) ? n - 1 : below(n)) + 1;
    at += n;
  } while (at < stop);
  if (which == rec.opened)
    rec.fill = words;
}

static void build_page(uint32_t which)
{
  fill_page(which, tight || chance(40) ? rec.page : 1 + below(rec.page));
}

static void open_a_page(void)
{
  rec.opened = 1 + below(true_pages - 1);
  if (labels[rec.opened] == 0)
    rec.opened = 0;
}

/* An object of the same page as the o-th one, that one among them. */
static uint32_t an_object_beside(size_t o)
{
  uint32_t page = objects[o] / rec.page;
  size_t first = o, end = o + 1;
  while (first > 0 && objects[first - 1] / rec.page == page)
    first--;
  while (end < objects_len && objects[end] / rec.page == page)
    end++;
  return objects[first + below((uint32_t)(end - first))];
}

/* Payload for objects whose headers stand already; of the references so many percent are nil. */
static void fill_objects(uint32_t nil)
{
  uint32_t i;
  size_t o;
  list_objects();
  for (o = 0; o < objects_len; o++) {
    uint32_t at = objects[o], header = heap[at];
    for (i = 1; i < header >> 16; i++)
      heap[at + i] = i > (header & 0xffff) / 2 ? a_number()
                     : chance(nil)             ? 0
                     : chance(10)              ? at
                     : chance(homely)          ? an_object_beside(o)
                                               : an_object();
  }
}

static void built(void)
{
  uint32_t page, pages, used, i, k, mode = below(10), nil = chance(30) ? 35 : chance(50) ? 3 : chance(50) ? 95 : 100;
  choose_size(&page, &pages);
  size_memory(page, pages);
  rec.label = 1 + below(2);
  tight = chance(15) && page >= 8;
  homely = 0;
  used = tight ? pages / (chance(70) ? 2 : 3) : mode < 6 ? (pages + 1) / 3 : mode < 9 ? below(pages) : pages - 1;
  for (i = 0; i < used; i++) {
    k = tight ? 1 + i : 1 + below(pages - 1);
    labels[k] = (uint16_t)rec.label;
  }
  open_a_page();
  for (i = 1; i < pages; i++)
    if (labels[i] != 0)
      build_page(i);
  fill_objects(nil);
  if (chance(70))
    junk_links();
}

static void some_call(uint32_t percent_good)
{
  uint32_t r = below(100);
  if (r < 40)
    some_collect(percent_good);
  else if (r < 57)
    some_alloc(percent_good);
  else if (r < 68)
    some_load(percent_good);
  else if (r < 78)
    some_look();
  else
    some_store(percent_good);
}

static void built_run(void)
{
  uint32_t i, steps = 1 + below(14);
  built();
  print_state();
  some_collect(88);
  for (i = 0; i < steps; i++)
    some_call(85);
}

/* A hint that names a page by a word of its own, or by the word past its end. */
static uint32_t a_hint_for(uint32_t which)
{
  return which * rec.page + (chance(40) ? rec.page : below(rec.page));
}

static int is_hinted(uint32_t which)
{
  size_t i;
  for (i = 0; i < hints_len; i++)
    if (hints[i] / rec.page == which || (hints[i] > 0 && (hints[i] - 1) / rec.page == which))
      return 1;
  return 0;
}

/* Hints for no page, for a few, or for every one. */
static void choose_held(void)
{
  uint32_t few = chance(45) ? 0 : chance(80) ? 1 + below(3) : true_pages - 1, i;
  for (hints_len = 0; hints_len < few; hints_len++) {
    i = few == true_pages - 1 ? 1 + (uint32_t)hints_len : 1 + below(true_pages - 1);
    hints[hints_len] = a_hint_for(i);
  }
}

/* So many words for so many pages: each gets one at least and P at most, and together they come as near to `sum` as they can. */
static void share_words(uint32_t *words, uint32_t pages, uint32_t sum)
{
  uint32_t i, some, left = sum < pages ? 0 : sum > pages * rec.page ? pages * (rec.page - 1) : sum - pages;
  for (i = 0; i < pages; i++)
    words[i] = 1;
  while (left > 0) {
    i = below(pages);
    some = below(rec.page - words[i] + 1);
    if (some > left)
      some = left;
    words[i] += some;
    left -= some;
  }
}

/* Every page is in use but so many, and one of those in use may be open. */
static void use_all_but(uint32_t free_pages)
{
  uint32_t i, which;
  rec.label = 1 + below(2);
  for (i = 1; i < true_pages; i++)
    labels[i] = (uint16_t)rec.label;
  for (i = 0; i < free_pages;) {
    which = 1 + below(true_pages - 1);
    i += labels[which] != 0;
    labels[which] = 0;
  }
  open_a_page();
}

/* Many pages in use and few free ones: the words on pages that no hint names are mostly just as many as Q-3 has room for, or one more.
   With f free pages, too many are (P + 1) * ceil(f / 2), and 1 where f is 0. */
static void remnants_run(void)
{
  static uint32_t words[most_pages], unhinted[most_pages];
  uint32_t page = chance(50) ? 8 : chance(60) ? 16 : chance(80) ? 64 : 1024, pages = 3 + below(chance(70) ? 12 : 45);
  uint32_t free_pages, too_many, i, n = 0, steps = below(4);
  size_memory(page, pages);
  free_pages = chance(8) ? 0 : 1 + below(chance(80) && pages > 6 ? 5 : pages - 1);
  use_all_but(free_pages);
  choose_held();
  tight = chance(30);
  homely = 0;
  for (i = 1; i < pages; i++)
    if (labels[i] != 0 && is_hinted(i))
      build_page(i);
    else if (labels[i] != 0)
      unhinted[n++] = i;
  too_many = free_pages == 0 ? 1 : (page + 1) * ((free_pages + 1) / 2);
  share_words(words, n, chance(85) ? too_many - 1 + below(2) : below(n * page));
  for (i = 0; i < n; i++)
    fill_page(unhinted[i], words[i]);
  fill_objects(chance(50) ? 30 : 90);
  print_state();
  choose_roots(95);
  if (chance(50))
    hold_everything();
  do_collect();
  if (n > 0 && chance(30)) { /* again, with one page more that stays if it is still in use */
    hints[hints_len++] = a_hint_for(unhinted[below(n)]);
    do_collect();
  }
  for (i = 0; i < steps; i++)
    some_call(90);
}

/* Few pages are free or none, so that a collection soon has nowhere to copy to and keeps pages, a part of whose objects was copied by then. Many
   references stay on their page. Then it is collected again with what the roots have become, some of them cleared, and called between. */
static void full_run(void)
{
  uint32_t page = chance(60) ? 8 : chance(60) ? 16 : chance(80) ? 64 : 256, pages = 3 + below(chance(80) ? 8 : 30), i, steps = 1 + below(5);
  size_memory(page, pages);
  use_all_but(chance(25) ? 0 : 1 + below(pages < 5 ? 1 : pages < 10 ? 2 : 4));
  choose_held();
  tight = chance(20);
  homely = chance(50) ? 60 : 10;
  for (i = 1; i < pages; i++)
    if (labels[i] != 0)
      build_page(i);
  fill_objects(chance(50) ? 30 : 80);
  if (chance(50))
    junk_links();
  print_state();
  choose_roots(97);
  if (chance(25))
    hold_everything();
  do_collect();
  for (i = 0; i < steps; i++) {
    if (chance(60))
      some_call(90);
    if (roots_len > 0)
      roots[below((uint32_t)roots_len)] = 0;
    if (chance(30))
      choose_held();
    do_collect();
  }
}

/* Aimed damage. */
static void damage_header(void)
{
  uint32_t at = an_object(), n = heap[at] >> 16, p = (heap[at] & 0xffff) / 2, to_end = true_page - at % true_page;
  if (objects_len == 0)
    return;
  switch (below(11)) {
  case 0: heap[at] ^= 1; break;
  case 1: n++; heap[at] = n * 65536 + 2 * p + 1; break;
  case 2: n--; heap[at] = n * 65536 + 2 * p + 1; break;
  case 3: heap[at] &= 0xffff; break;
  case 4: heap[at] = n * 65536 + 2 * n + 1; break;
  case 5: heap[at] = n * 65536 + 2 * (n - 1) + 1; break;
  case 6: heap[at] = (to_end + 1) * 65536 + 1; break;
  case 7: heap[at] = to_end * 65536 + 1; break;
  case 8: heap[at] = any_word() | 1; break;
  case 9: heap[at] ^= (uint32_t)1 << below(32); break;
  default: heap[at] = 0; break;
  }
}

static void damage_tail(void)
{
  uint32_t page = 1 + below(true_pages - 1), at = (page + 1) * true_page - 1 - (chance(60) ? 0 : below(true_page));
  heap[at] = chance(30) ? 65537 : chance(30) ? 1 : any_word();
}

/* Page 0: a label, words, or both, so that it looks like a page in use. */
static void damage_zero(void)
{
  uint32_t how = below(3);
  if (how != 0)
    labels[0] = (uint16_t)(chance(80) ? rec.label : any_word());
  if (how == 2) {
    heap[0] = 65537;
    heap[1] = chance(50) ? 0 : 65537;
    if (objects_len < 4)
      objects_len = 4;
    for (how = 0; how < objects_len / 2; how++) /* addresses on page 0 are to be met often */
      objects[how] = how % 2;
    return;
  }
  if (how == 0) {
    uint32_t at = below(true_page);
    heap[at] = chance(50) ? 65537 : 1 + below(9);
  }
}

/* Words on the page that allocate or collect would take next. */
static void damage_free(void)
{
  uint32_t page, i;
  for (page = 1; page < true_pages && labels[page] != 0; page++)
    ;
  for (i = 0; i < 3 && page < true_pages; i++) {
    uint32_t at = page * true_page + below(true_page);
    heap[at] = chance(50) ? 65537 : any_word();
  }
}

/* An open page and a fill that mostly do not go together. */
static void damage_fill(void)
{
  uint32_t page;
  for (page = 1 + below(true_pages); page < true_pages && labels[page] == 0; page++)
    ;
  rec.opened = page < true_pages ? page : 0;
  switch (below(5)) {
  case 0: rec.fill = 0; break;
  case 1: rec.fill = true_page + 1; break;
  case 2: rec.fill = 1; break;
  default: rec.fill = 1 + below(true_page); break;
  }
}

static void damage_label(void)
{
  uint32_t page = 1 + below(true_pages - 1);
  static const uint16_t to[] = {0, 1, 2, 3, 255, 257, 258, 65535};
  if (chance(60))
    page = an_object() / true_page;
  labels[page] = chance(30) ? (uint16_t)(3 - rec.label) : to[below(8)];
}

static void damage_record(void)
{
  switch (below(14)) {
  case 0: rec.page *= 2; break;
  case 1: rec.page /= 2; break;
  case 2: rec.page = chance(50) ? 0 : rec.page + 1; break;
  case 3: rec.pages++; break;
  case 4: rec.pages--; break;
  case 5: rec.pages = chance(50) ? 0 : any_word(); break;
  case 6: rec.label = 3 - rec.label; break;
  case 7: rec.label = chance(50) ? below(5) : rec.label + 65536; break;
  case 8: rec.opened = chance(50) ? 0 : rec.pages; break;
  case 9: rec.opened = below(true_pages); break;
  case 10: rec.opened = chance(50) ? any_word() : rec.opened + 65536; break;
  case 11: rec.fill += 1; break;
  case 12: rec.fill -= 1; break;
  default: rec.fill = chance(40) ? 0 : chance(50) ? below(true_page + 3) : any_word(); break;
  }
}

/* A label that is none, on every page in use and in the record. */
static void damage_all_labels(void)
{
  static const uint16_t bad[] = {0, 3, 3, 3, 4, 65535};
  uint32_t i, label = bad[below(6)];
  for (i = 0; i < true_pages; i++)
    if (labels[i] == rec.label)
      labels[i] = (uint16_t)label;
  rec.label = label;
}

static void damage_reference(void)
{
  uint32_t tries, at;
  for (tries = 0; tries < 20; tries++) {
    at = an_object();
    if (at != 0 && (heap[at] & 0xffff) / 2 > 0) {
      at += 1 + below((heap[at] & 0xffff) / 2);
      heap[at] = near_word();
      return;
    }
  }
}

static void damage_length(void)
{
  size_t *which = chance(40) ? &heap_len : chance(50) ? &labels_len : &links_len;
  switch (below(5)) {
  case 0: *which += 1; break;
  case 1: *which -= *which > 0; break;
  case 2: *which = 0; break;
  case 3: *which = *which / 2; break;
  default: *which += 1 + below(16); break;
  }
}

static void damaged_run(void)
{
  uint32_t i, hurts = chance(85) ? 1 : 2 + below(3), steps = 1 + below(4);
  built();
  for (i = 0; i < hurts; i++)
    switch (below(20)) {
    case 0: case 1: case 2: case 3: damage_header(); break;
    case 4: case 5: damage_tail(); break;
    case 6: damage_zero(); break;
    case 7: damage_free(); break;
    case 8: case 9: damage_label(); break;
    case 10: damage_all_labels(); break;
    case 11: case 12: damage_fill(); break;
    case 13: case 14: damage_record(); break;
    case 15: case 16: case 17: case 18: damage_reference(); break;
    default: damage_length(); break;
    }
  print_state();
  if (chance(40)) {
    some_load(92);
    some_look();
    some_store(92);
  }
  for (i = 0; i < steps; i++)
    some_call(92);
}

/* Junk: words that often look like headers, labels at random, under a record that is mostly valid. */
static void junk_run(void)
{
  uint32_t page, pages, i, steps = 4 + below(12);
  choose_size(&page, &pages);
  if (heap_len > 2000)
    page = 8;
  size_memory(page, pages);
  rec.label = 1 + below(2);
  for (i = 0; i < heap_len; i++)
    if (chance(60))
      heap[i] = chance(60) ? a_header(chance(80) ? 4 : page) : chance(50) ? below((uint32_t)heap_len) : any_word();
  for (i = 0; i < pages; i++)
    labels[i] = (uint16_t)below(chance(70) ? 3 : 4);
  junk_links();
  for (i = 1; i < pages && rec.opened == 0; i++)
    if (labels[i] == rec.label && chance(30)) {
      rec.opened = i;
      rec.fill = 1 + below(page);
    }
  print_state();
  list_objects();
  for (i = 0; i < steps; i++)
    some_call(85);
}

/* Words near where the pages needed change: none and one, P and P + 1, a multiple of P + 1 and its neighbours, the largest; or any. */
static uint32_t words_to_ask(uint32_t page)
{
  uint32_t multiple = (page + 1) * below(chance(50) ? 9 : 4096);
  switch (below(7)) {
  case 0: return below(2);
  case 1: return page + below(2);
  case 2: return 4294967295u - below(page + 2);
  case 3: return any_word();
  default: return multiple - 1 + below(3);
  }
}

static uint32_t page_to_ask(void)
{
  static const uint32_t bad[] = {0, 0, 1, 4, 7, 9, 12, 1023, 1025, 2048, 4294967295u};
  if (chance(70))
    return (uint32_t)8 << below(8);
  return chance(60) ? bad[below(11)] : chance(50) ? below(2100) : any_word();
}

static void numbers_run(void)
{
  uint32_t i, page, pages, word;
  for (i = 0; i < 6; i++) {
    choose_size(&page, &pages);
    if (chance(25))
      page = chance(50) ? below(2100) : any_word();
    if (chance(25))
      pages = chance(50) ? below(3) : chance(50) ? 4090 + below(12) : any_word();
    word = page * below(pages + 2);
    word = chance(50) ? word - below(2) : chance(50) ? page * pages - below(3) : any_word();
    if (chance(5))
      word = 0;
    printf("page %" PRIu32 " %" PRIu32 " %" PRIu32 "\n", word, page, pages);
    printf("before %" PRIu32 " %" PRIu32 " %" PRIu32 "\n", word, page, pages);
  }
  for (i = 0; i < 6; i++) {
    page = page_to_ask();
    printf("need %" PRIu32 " %" PRIu32 "\n", words_to_ask(page), page);
  }
  calls_made += 18;
}

int main(int argc, char **argv)
{
  uint64_t calls;
  if (argc != 3)
    return fprintf(stderr, "generate SEED CALLS > script\n"), 2;
  seed_state = strtoull(argv[1], NULL, 10) * UINT64_C(1000003);
  calls = strtoull(argv[2], NULL, 10);
  printf("# generate %s %s\n", argv[1], argv[2]);
  while (calls_made < calls) {
    uint32_t r = below(100);
    if (r < 6)
      honest();
    else if (r < 32)
      built_run();
    else if (r < 44)
      remnants_run();
    else if (r < 57)
      full_run();
    else if (r < 92)
      damaged_run();
    else if (r < 97)
      junk_run();
    else
      numbers_run();
  }
  return fflush(stdout) != 0 || ferror(stdout);
}
