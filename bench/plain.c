/* plain.c: document 01's rules, with, as a C programmer would write them by hand for speed, to stand beside the proved library
   in bench/run: the same tests, the same order of work and the same memory, nothing besides what is lent. Pages are found by a shift, the
   free page of a collection by a cursor that only moves up, and the queue is the links in order of joining. The walk to an address leaves off
   there; the others go to the page's stop. It answers as the model does: bench/run checks that before it counts. */
#include "plain.h"

#include <string.h>

static inline int good_page(uint32_t page)
{
  return page >= 8 && page <= 1024 && (page & (page - 1)) == 0;
}

static inline int good_sizes(size_t heap_len, size_t labels_len, size_t links_len, uint32_t page, uint32_t pages)
{
  return good_page(page) && pages >= 3 && pages <= 4096 && heap_len == (size_t)page * pages && labels_len == pages && links_len == pages;
}

static inline int good_layout(size_t heap_len, const uint16_t *labels, size_t labels_len, size_t links_len, const fouterpin_record *r)
{
  if (!good_sizes(heap_len, labels_len, links_len, r->page, r->pages) || (r->label != 1 && r->label != 2))
    return 0;
  if (r->opened == 0)
    return r->fill == r->page;
  return r->opened < r->pages && labels[r->opened] == r->label && r->fill >= 1 && r->fill <= r->page;
}

/* The words of the object whose header this is, with `room` words to the page's end; 0 if it is no header. */
static inline uint32_t object_words(uint32_t word, uint32_t room)
{
  uint32_t n = word >> 16;
  return (word & 1) != 0 && n <= room && (word & 0xffff) >> 1 < n ? n : 0;
}

/* The start of the object that the address is on or inside; 0 if nothing is there. The walk leaves off once the address is met or passed. An
   object that ends no later than the address fits on the page, so only the one that goes past it is tested for that. */
static inline uint32_t object_at(const uint32_t *heap, const uint16_t *labels, const fouterpin_record *r, unsigned shift, uint32_t address)
{
  uint32_t which = address >> shift, at, end, n;
  if (which == 0 || which >= r->pages || labels[which] != r->label)
    return 0;
  at = which << shift;
  end = at + r->page;
  do {
    n = object_words(heap[at], UINT16_MAX);
    if (n == 0)
      return 0;
    at += n;
  } while (at <= address);
  return at <= end ? at - n : 0;
}

static inline int is_reference(const uint32_t *heap, const uint16_t *labels, const fouterpin_record *r, unsigned shift, uint32_t word)
{
  return word == 0 || object_at(heap, labels, r, shift, word) == word;
}

static inline fouterpin_answer answer(uint32_t refusal, uint32_t value, fouterpin_record r)
{
  fouterpin_answer a;
  a.refusal = refusal;
  a.value = value;
  a.record = r;
  return a;
}

/* Refusal 4 or 10 where no object starts at the address; else it is accepted, and the value is the address. */
static inline fouterpin_answer looked_up(const uint32_t *heap, const uint16_t *labels, fouterpin_record r, unsigned shift, uint32_t address)
{
  uint32_t start = object_at(heap, labels, &r, shift, address);
  return answer(start == 0 ? FOUTERPIN_NO_OBJECT : start == address ? 0 : FOUTERPIN_INSIDE, start, r);
}

fouterpin_answer plain_start(uint32_t *heap, size_t heap_len, uint16_t *labels, size_t labels_len, uint16_t *links, size_t links_len,
                             fouterpin_record r, uint32_t page, uint32_t pages)
{
  if (page == 0)
    page = 64;
  if (!good_sizes(heap_len, labels_len, links_len, page, pages))
    return answer(FOUTERPIN_LAYOUT, 0, r);
  memset(heap, 0, heap_len * sizeof *heap);
  memset(labels, 0, labels_len * sizeof *labels);
  memset(links, 0, links_len * sizeof *links);
  r.page = page;
  r.pages = pages;
  r.label = 1;
  r.opened = 0;
  r.fill = page;
  return answer(0, 0, r);
}

fouterpin_answer plain_allocate(uint32_t *heap, size_t heap_len, uint16_t *labels, size_t labels_len, uint16_t *links, size_t links_len,
                                fouterpin_record r, uint32_t d, uint32_t p)
{
  uint32_t *object;
  size_t i;
  (void)links;
  if (!good_layout(heap_len, labels, labels_len, links_len, &r))
    return answer(FOUTERPIN_LAYOUT, 0, r);
  if (d >= r.page || p > d)
    return answer(FOUTERPIN_SHAPE, 0, r);
  if (d >= r.page - r.fill) {
    uint32_t used = 0, which;
    for (which = 1; which < r.pages; which++)
      used += labels[which] != 0;
    if (r.pages - 1 < 3 * used + 2)
      return answer(FOUTERPIN_COLLECT_FIRST, 0, r);
    for (which = 1; labels[which] != 0; which++)
      ;
    labels[which] = (uint16_t)r.label;
    r.opened = which;
    r.fill = 0;
  }
  object = heap + r.opened * r.page + r.fill;
  object[0] = (d + 1) << 16 | p << 1 | 1;
  for (i = 1; i <= d; i++)
    object[i] = 0;
  r.fill += d + 1;
  return answer(0, (uint32_t)(object - heap), r);
}

fouterpin_answer plain_look_up(const uint32_t *heap, size_t heap_len, const uint16_t *labels, size_t labels_len, const uint16_t *links,
                               size_t links_len, fouterpin_record r, uint32_t address)
{
  (void)links;
  if (!good_layout(heap_len, labels, labels_len, links_len, &r))
    return answer(FOUTERPIN_LAYOUT, 0, r);
  return looked_up(heap, labels, r, (unsigned)__builtin_ctz(r.page), address);
}

fouterpin_answer plain_load(const uint32_t *heap, size_t heap_len, const uint16_t *labels, size_t labels_len, const uint16_t *links,
                            size_t links_len, fouterpin_record r, uint32_t address, uint32_t index)
{
  fouterpin_answer where;
  (void)links;
  if (!good_layout(heap_len, labels, labels_len, links_len, &r))
    return answer(FOUTERPIN_LAYOUT, 0, r);
  where = looked_up(heap, labels, r, (unsigned)__builtin_ctz(r.page), address);
  if (where.refusal != 0)
    return where;
  if (index >= (heap[address] >> 16) - 1)
    return answer(FOUTERPIN_INDEX, 0, r);
  return answer(0, heap[address + 1 + index], r);
}

fouterpin_answer plain_store(uint32_t *heap, size_t heap_len, uint16_t *labels, size_t labels_len, uint16_t *links, size_t links_len,
                             fouterpin_record r, uint32_t address, uint32_t index, uint32_t value)
{
  fouterpin_answer where;
  unsigned shift;
  (void)links;
  if (!good_layout(heap_len, labels, labels_len, links_len, &r))
    return answer(FOUTERPIN_LAYOUT, 0, r);
  shift = (unsigned)__builtin_ctz(r.page);
  where = looked_up(heap, labels, r, shift, address);
  if (where.refusal != 0)
    return where;
  if (index >= (heap[address] >> 16) - 1)
    return answer(FOUTERPIN_INDEX, 0, r);
  if (index < (heap[address] & 0xffff) >> 1 && !is_reference(heap, labels, &r, shift, value))
    return answer(FOUTERPIN_BAD_REFERENCE, 0, r);
  heap[address + 1 + index] = value;
  return answer(0, 0, r);
}

static int all_zero(const uint32_t *from, const uint32_t *to)
{
  while (from < to)
    if (*from++ != 0)
      return 0;
  return 1;
}

/* One page in use: objects, then zeros, and every reference good. */
static int sound_page(const uint32_t *heap, const uint16_t *labels, const fouterpin_record *r, unsigned shift, uint32_t which)
{
  uint32_t first = which << shift, end = first + r->page, at = first, n, i;
  while (at < end && (n = object_words(heap[at], end - at)) != 0) {
    uint32_t references = (heap[at] & 0xffff) >> 1;
    for (i = 1; i <= references; i++)
      if (!is_reference(heap, labels, r, shift, heap[at + i]))
        return 0;
    at += n;
  }
  return at > first && (which != r->opened || at == first + r->fill) && all_zero(heap + at, heap + end);
}

static int sound(const uint32_t *heap, const uint16_t *labels, const fouterpin_record *r, unsigned shift)
{
  uint32_t which;
  if (labels[0] != 0)
    return 0;
  for (which = 0; which < r->pages; which++) {
    const uint32_t *first = heap + ((size_t)which << shift);
    if (labels[which] == 0) {
      if (!all_zero(first, first + r->page))
        return 0;
    } else if (labels[which] != r->label || !sound_page(heap, labels, r, shift, which)) {
      return 0;
    }
  }
  return 1;
}

/* A collection at work. The queue holds the hinted pages, then those taken for copies, then those kept. */
typedef struct {
  uint32_t *heap;
  uint16_t *labels, *queue;
  uint32_t page, pages, fresh_label, queued;
  uint32_t copy_at, copy_end; /* where the next copy goes, and the end of its page; where a page was kept they are one, and nothing fits */
  uint32_t cursor;            /* no page below is free */
  uint32_t objects, words, kept, fillers;
  unsigned shift;
} collection;

static inline void join(collection *c, uint32_t which)
{
  c->labels[which] = (uint16_t)c->fresh_label;
  c->queue[c->queued++] = (uint16_t)which;
}

/* Takes the lowest free page for copies; 0 if there is none. */
static int take_page(collection *c)
{
  while (c->cursor < c->pages && c->labels[c->cursor] != 0)
    c->cursor++;
  if (c->cursor == c->pages)
    return 0;
  join(c, c->cursor);
  c->copy_at = c->cursor << c->shift;
  c->copy_end = c->copy_at + c->page;
  return 1;
}

/* Copies an object of n words or, where that fits nowhere, keeps its page. Once a page is kept no page is free, and nothing fits any more. */
static uint32_t move_or_keep(collection *c, uint32_t object, uint32_t n)
{
  uint32_t to, *from, *copy;
  if (n > c->copy_end - c->copy_at && !take_page(c)) {
    join(c, object >> c->shift);
    c->copy_end = c->copy_at;
    c->kept++;
    return object;
  }
  to = c->copy_at;
  from = c->heap + object;
  for (copy = c->heap + to; copy < c->heap + to + n; copy++)
    *copy = *from++;
  c->heap[object] = 2 * to;
  c->copy_at += n;
  c->objects++;
  c->words += n;
  return to;
}

/* An object that was copied leads to its copy, also where its page was kept since: so its header is looked at before the label. */
static inline uint32_t forward(collection *c, uint32_t reference)
{
  uint32_t word;
  if (reference == 0)
    return 0;
  word = c->heap[reference];
  if ((word & 1) == 0)
    return word / 2;
  if (c->labels[reference >> c->shift] == c->fresh_label)
    return reference;
  return move_or_keep(c, reference, word >> 16);
}

/* The length of what was copied from a place whose word is no header, by its copy; 0 where nothing was: there the page's objects end. */
static inline uint32_t copied_words(const collection *c, uint32_t word)
{
  return word == 0 ? 0 : c->heap[word / 2] >> 16;
}

static void sweep(collection *c)
{
  uint32_t next, at, end, n, i;
  for (next = 0; next < c->queued; next++) {
    at = (uint32_t)c->queue[next] << c->shift;
    end = at + c->page;
    for (; at < end; at += n) {
      uint32_t word = c->heap[at], references = (word & 0xffff) >> 1;
      n = object_words(word, end - at);
      if (n == 0) {
        n = copied_words(c, word);
        if (n == 0)
          break;
        continue;
      }
      for (i = 1; i <= references; i++)
        c->heap[at + i] = forward(c, c->heap[at + i]);
    }
  }
}

/* Kept pages are the last in the queue, and no others have places that something was copied from. */
static void put_fillers(collection *c)
{
  uint32_t next, at, end, n;
  for (next = c->queued - c->kept; next < c->queued; next++) {
    at = (uint32_t)c->queue[next] << c->shift;
    end = at + c->page;
    for (; at < end; at += n) {
      n = object_words(c->heap[at], end - at);
      if (n != 0)
        continue;
      n = copied_words(c, c->heap[at]);
      if (n == 0)
        break;
      c->heap[at] = n << 16 | 1;
      memset(c->heap + at + 1, 0, (n - 1) * sizeof *c->heap);
      c->fillers++;
    }
  }
}

static fouterpin_collected refused(uint32_t refusal, fouterpin_record r)
{
  fouterpin_collected a;
  memset(&a, 0, sizeof a);
  a.refusal = refusal;
  a.record = r;
  return a;
}

fouterpin_collected plain_collect(uint32_t *heap, size_t heap_len, uint16_t *labels, size_t labels_len, uint16_t *links, size_t links_len,
                                  fouterpin_record r, uint32_t *roots, size_t roots_len, const uint32_t *hints, size_t hints_len)
{
  collection c;
  fouterpin_collected a;
  uint32_t hinted, which, old = r.label;
  size_t i;
  if (!good_layout(heap_len, labels, labels_len, links_len, &r))
    return refused(FOUTERPIN_LAYOUT, r);
  c.shift = (unsigned)__builtin_ctz(r.page);
  if (!sound(heap, labels, &r, c.shift))
    return refused(FOUTERPIN_UNSOUND, r);
  for (i = 0; i < roots_len; i++)
    if (!is_reference(heap, labels, &r, c.shift, roots[i]))
      return refused(FOUTERPIN_BAD_REFERENCE, r);
  c.heap = heap;
  c.labels = labels;
  c.queue = links;
  c.page = r.page;
  c.pages = r.pages;
  c.fresh_label = old == 1 ? 2 : 1;
  c.queued = 0;
  c.copy_at = c.copy_end = 0;
  c.cursor = 1;
  c.objects = c.words = c.kept = c.fillers = 0;
  /* A hint word names its own page, and the one before where it begins a page: elsewhere both are one. */
  for (i = 0; i < hints_len; i++) {
    which = hints[i] >> c.shift;
    if (which != 0 && which < r.pages && labels[which] == old)
      join(&c, which);
    if ((hints[i] & (r.page - 1)) == 0 && which > 1 && which <= r.pages && labels[which - 1] == old)
      join(&c, which - 1);
  }
  hinted = c.queued;
  for (i = 0; i < roots_len; i++)
    roots[i] = forward(&c, roots[i]);
  sweep(&c);
  put_fillers(&c);
  for (which = 1; which < r.pages; which++)
    if (labels[which] == old) {
      labels[which] = 0;
      memset(heap + ((size_t)which << c.shift), 0, r.page * sizeof *heap);
    }
  r.label = c.fresh_label;
  r.opened = 0;
  r.fill = r.page;
  a.taken = c.queued - hinted - c.kept;
  if (a.taken != 0) {
    r.opened = links[hinted + a.taken - 1];
    r.fill = c.copy_at - (r.opened << c.shift);
  }
  memset(links, 0, links_len * sizeof *links);
  a.refusal = 0;
  a.hinted = hinted;
  a.objects = c.objects;
  a.words = c.words;
  a.kept = c.kept;
  a.fillers = c.fillers;
  a.record = r;
  return a;
}

uint32_t plain_page_named(uint32_t word, uint32_t page, uint32_t pages)
{
  uint32_t which;
  if (!good_page(page) || pages < 3 || pages > 4096)
    return 0;
  which = word / page;
  return which < pages ? which : 0;
}

uint32_t plain_page_named_before(uint32_t word, uint32_t page, uint32_t pages)
{
  return word == 0 ? 0 : plain_page_named(word - 1, page, pages);
}

uint32_t plain_pages_needed(uint32_t words, uint32_t page)
{
  return !good_page(page) ? 4294967295u : words == 0 ? 0 : 2 * (words / (page + 1)) + 1;
}
