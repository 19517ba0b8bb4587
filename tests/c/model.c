/* model.c: document 01's calls as a model in C, with requests of document 02, written from the two alone, in their words and
   order, plain rather than fast. Nothing here was taken from the Rattle code; the tests compare the two. It assumes nothing of what it is
   lent beyond true lengths. Q-4 changes no answer, so the model does without it: its walks go on to the stop, as document 01's do.
   tests/c/mutants plants errors in this file by exact lines: a line changed here is changed there. */
#include "model.h"

/* There is no 8: Q-6, "Never refuse a collection for room." */
enum { layout = 1, shape, collect_first, nothing_there, index_too_high, bad_reference, unsound, inside_object = 10 };

/* What a collection works on. The document keeps its queue in the links; the model has an array of its own and only clears them. */
typedef struct {
  uint32_t *heap;
  uint16_t *labels;
  uint16_t *links;
  model_record r;
  uint32_t new_label;
  uint32_t queue[4096]; /* pages that have the new label, in order of joining */
  uint32_t queued;
  uint32_t copy_page; /* 0 for none yet */
  uint32_t copy_fill;
  uint32_t hinted, taken, objects, words, kept, fillers;
} world;

/* P is a power of two from 8 to 1,024. */
static int good_page(uint32_t page)
{
  uint32_t size;
  for (size = 8; size <= 1024; size = size * 2)
    if (page == size)
      return 1;
  return 0;
}

/* "At start only", and Q-5: "From now on P = 0 at start means 64." */
uint32_t model_page_at_start(uint32_t page)
{
  if (page == 0)
    return 64;
  return page;
}

/* T is 3 to 4,096. */
static int good_pages(uint32_t pages)
{
  return pages >= 3 && pages <= 4096;
}

/* "Heap length is exactly P*T, the other two exactly T." */
static int good_lengths(size_t heap_len, size_t labels_len, size_t links_len, uint32_t page, uint32_t pages)
{
  return heap_len == (size_t)page * pages && labels_len == pages && links_len == pages;
}

/* Refusal 1 of every call but start: P and T, the lengths, then the record. "Open page 0 goes with fill P. Otherwise the open page is
   1 to T-1 with the current label, and fill is 1 to P." */
static int good_layout(size_t heap_len, const uint16_t *labels, size_t labels_len, size_t links_len, model_record r)
{
  if (!good_page(r.page) || !good_pages(r.pages))
    return 0;
  if (!good_lengths(heap_len, labels_len, links_len, r.page, r.pages))
    return 0;
  if (r.label != 1 && r.label != 2)
    return 0;
  if (r.opened == 0)
    return r.fill == r.page;
  if (r.opened > r.pages - 1)
    return 0;
  return labels[r.opened] == r.label && r.fill >= 1 && r.fill <= r.page;
}

/* n and p of a header, n * 65,536 + 2p + 1. */
static uint32_t size_of(uint32_t word)
{
  return word / 65536;
}

static uint32_t refs_of(uint32_t word)
{
  return word % 65536 / 2;
}

/* "A word is a header if it is odd, n is at least 1, p is at most n - 1, and n words fit before the page's end." */
static int is_header(const uint32_t *heap, model_record r, uint32_t at)
{
  uint32_t word = heap[at];
  uint32_t page_end = (at / r.page + 1) * r.page;
  if (word % 2 == 0)
    return 0;
  if (size_of(word) < 1)
    return 0;
  if (refs_of(word) > size_of(word) - 1)
    return 0;
  return size_of(word) <= page_end - at;
}

/* Where the walk of a page stops: an address, at most that of the page's end. */
static uint32_t walk_stop(const uint32_t *heap, model_record r, uint32_t page)
{
  uint32_t at = page * r.page;
  while (at < (page + 1) * r.page && is_header(heap, r, at))
    at = at + size_of(heap[at]);
  return at;
}

/* "An object start is an address that the walk meets as a header, on a page 1 to T-1 with the current label." */
static int is_object_start(const uint32_t *heap, const uint16_t *labels, model_record r, uint32_t address)
{
  uint32_t page = address / r.page;
  uint32_t at;
  if (page < 1 || page > r.pages - 1 || labels[page] != r.label)
    return 0;
  at = page * r.page;
  while (at < (page + 1) * r.page && is_header(heap, r, at)) {
    if (at == address)
      return 1;
    at = at + size_of(heap[at]);
  }
  return 0;
}

static int is_reference(const uint32_t *heap, const uint16_t *labels, model_record r, uint32_t word)
{
  return word == 0 || is_object_start(heap, labels, r, word);
}

/* k: "nonzero labels among pages 1 to T-1". */
static uint32_t pages_in_use(const uint16_t *labels, model_record r)
{
  uint32_t page, k = 0;
  for (page = 1; page < r.pages; page++)
    if (labels[page] != 0)
      k = k + 1;
  return k;
}

/* "The lowest-numbered page (from 1) with label 0"; 0 if there is none. */
static uint32_t lowest_free(const uint16_t *labels, model_record r)
{
  uint32_t page;
  for (page = 1; page < r.pages; page++)
    if (labels[page] == 0)
      return page;
  return 0;
}

static int all_zero(const uint32_t *heap, uint32_t from, uint32_t to)
{
  uint32_t at;
  for (at = from; at < to; at++)
    if (heap[at] != 0)
      return 0;
  return 1;
}

static int good_references(const uint32_t *heap, const uint16_t *labels, model_record r, uint32_t page)
{
  uint32_t at, i, stop = walk_stop(heap, r, page);
  for (at = page * r.page; at < stop; at = at + size_of(heap[at]))
    for (i = 0; i < refs_of(heap[at]); i++)
      if (!is_reference(heap, labels, r, heap[at + 1 + i]))
        return 0;
  return 1;
}

/* "Sound means", for a record that is valid. */
static int is_sound(const uint32_t *heap, const uint16_t *labels, model_record r)
{
  uint32_t page;
  if (labels[0] != 0)
    return 0;
  for (page = 0; page < r.pages; page++) {
    uint32_t first = page * r.page, end = first + r.page, stop;
    if (labels[page] != 0 && labels[page] != r.label)
      return 0;
    if (labels[page] == 0) {
      if (!all_zero(heap, first, end))
        return 0;
      continue;
    }
    stop = walk_stop(heap, r, page);
    if (stop == first)
      return 0;
    if (!all_zero(heap, stop, end))
      return 0;
    if (page == r.opened && stop != first + r.fill)
      return 0;
  }
  for (page = 1; page < r.pages; page++)
    if (labels[page] != 0 && !good_references(heap, labels, r, page))
      return 0;
  return 1;
}

static model_answer answer(uint32_t refusal, uint32_t value, model_record r)
{
  model_answer a;
  a.refusal = refusal;
  a.value = value;
  a.record = r;
  return a;
}

/* "an object start, inside the object that starts at s, or nothing", as "0 and the start, 10 and s, or 4 and 0". An object ends on the
   page that it starts on, so s is looked for on the address's own page. */
static model_answer where_landed(const uint32_t *heap, const uint16_t *labels, model_record r, uint32_t address)
{
  uint32_t s;
  if (is_object_start(heap, labels, r, address))
    return answer(0, address, r);
  for (s = address / r.page * r.page; s < address; s++)
    if (is_object_start(heap, labels, r, s) && address < s + size_of(heap[s]))
      return answer(inside_object, s, r);
  return answer(nothing_there, 0, r);
}

model_answer model_start(uint32_t *heap, size_t heap_len, uint16_t *labels, size_t labels_len, uint16_t *links, size_t links_len,
                         model_record r, uint32_t page, uint32_t pages)
{
  size_t i;
  page = model_page_at_start(page);
  if (!good_page(page) || !good_pages(pages) || !good_lengths(heap_len, labels_len, links_len, page, pages))
    return answer(layout, 0, r);
  for (i = 0; i < heap_len; i++)
    heap[i] = 0;
  for (i = 0; i < labels_len; i++)
    labels[i] = 0;
  for (i = 0; i < links_len; i++)
    links[i] = 0;
  r.page = page;
  r.pages = pages;
  r.label = 1;
  r.opened = 0;
  r.fill = page;
  return answer(0, 0, r);
}

model_answer model_allocate(uint32_t *heap, size_t heap_len, uint16_t *labels, size_t labels_len, uint16_t *links, size_t links_len,
                            model_record r, uint32_t d, uint32_t p)
{
  uint32_t n, address, i;
  (void)links;
  if (!good_layout(heap_len, labels, labels_len, links_len, r))
    return answer(layout, 0, r);
  if (d > r.page - 1 || p > d)
    return answer(shape, 0, r);
  n = d + 1;
  if (n > r.page - r.fill) {
    uint32_t k = pages_in_use(labels, r);
    uint32_t usable = r.pages - 1;
    if (usable < 3 * k + 2)
      return answer(collect_first, 0, r);
    r.opened = lowest_free(labels, r);
    r.fill = 0;
    labels[r.opened] = (uint16_t)r.label;
  }
  address = r.opened * r.page + r.fill;
  heap[address] = n * 65536 + 2 * p + 1;
  for (i = 0; i < d; i++)
    heap[address + 1 + i] = 0;
  r.fill = r.fill + n;
  return answer(0, address, r);
}

model_answer model_look_up(const uint32_t *heap, size_t heap_len, const uint16_t *labels, size_t labels_len, const uint16_t *links,
                           size_t links_len, model_record r, uint32_t address)
{
  (void)links;
  if (!good_layout(heap_len, labels, labels_len, links_len, r))
    return answer(layout, 0, r);
  return where_landed(heap, labels, r, address);
}

/* "Load and store pass this on." */
model_answer model_load(const uint32_t *heap, size_t heap_len, const uint16_t *labels, size_t labels_len, const uint16_t *links,
                        size_t links_len, model_record r, uint32_t address, uint32_t index)
{
  model_answer where;
  (void)links;
  if (!good_layout(heap_len, labels, labels_len, links_len, r))
    return answer(layout, 0, r);
  where = where_landed(heap, labels, r, address);
  if (where.refusal != 0)
    return where;
  if (index >= size_of(heap[address]) - 1)
    return answer(index_too_high, 0, r);
  return answer(0, heap[address + 1 + index], r);
}

model_answer model_store(uint32_t *heap, size_t heap_len, uint16_t *labels, size_t labels_len, uint16_t *links, size_t links_len,
                         model_record r, uint32_t address, uint32_t index, uint32_t value)
{
  model_answer where;
  (void)links;
  if (!good_layout(heap_len, labels, labels_len, links_len, r))
    return answer(layout, 0, r);
  where = where_landed(heap, labels, r, address);
  if (where.refusal != 0)
    return where;
  if (index >= size_of(heap[address]) - 1)
    return answer(index_too_high, 0, r);
  if (index < refs_of(heap[address]) && !is_reference(heap, labels, r, value))
    return answer(bad_reference, 0, r);
  heap[address + 1 + index] = value;
  return answer(0, 0, r);
}

/* "The page gets the new label and joins the queue." */
static void join(world *w, uint32_t page)
{
  w->labels[page] = (uint16_t)w->new_label;
  w->queue[w->queued] = page;
  w->queued = w->queued + 1;
}

/* The page of a word, or 0: "its page if that is 1 to T-1 and current". */
static uint32_t page_of_word(const world *w, uint32_t word)
{
  uint32_t page = word / w->r.page;
  if (page >= 1 && page <= w->r.pages - 1 && w->labels[page] == w->r.label)
    return page;
  return 0;
}

/* "During a collection an even word, twice the new address, stands there instead" of an object's header. 0 is even too: it stands from the stop
   of a page's walk on, and no address is 0. */
static int is_copied(const world *w, uint32_t place)
{
  return w->heap[place] != 0 && w->heap[place] % 2 == 0;
}

static uint32_t copy_of(const world *w, uint32_t place)
{
  return w->heap[place] / 2;
}

static int fits_copy_page(const world *w, uint32_t n)
{
  return w->copy_page != 0 && n <= w->r.page - w->copy_fill;
}

/* "Copied whole: at the copy page's fill if it fits, otherwise at the start of the lowest-numbered free page." There is one of the two. */
static uint32_t copy_object(world *w, uint32_t object)
{
  uint32_t n = size_of(w->heap[object]);
  uint32_t to, i;
  if (!fits_copy_page(w, n)) {
    uint32_t page = lowest_free(w->labels, w->r);
    join(w, page);
    w->copy_page = page;
    w->copy_fill = 0;
    w->taken = w->taken + 1;
  }
  to = w->copy_page * w->r.page + w->copy_fill;
  for (i = 0; i < n; i++)
    w->heap[to + i] = w->heap[object + i];
  w->copy_fill = w->copy_fill + n;
  w->objects = w->objects + 1;
  w->words = w->words + n;
  w->heap[object] = 2 * to;
  return to;
}

/* "the object's own page is kept: it gets the new label, joins the end of the queue, and its uncopied objects all stay and are swept". */
static void keep_page(world *w, uint32_t page)
{
  join(w, page);
  w->kept = w->kept + 1;
}

/* "When a copy fits neither the copy page nor a free page, the object's own page is kept", and "From then on that collection copies nothing
   more". */
static int may_copy(const world *w, uint32_t n)
{
  if (w->kept != 0)
    return 0;
  return fits_copy_page(w, n) || lowest_free(w->labels, w->r) != 0;
}

/* "Forwarding 0 gives 0. An object on a page with the new label gives itself. An object already copied gives its copy." Which of the last two is
   asked first makes a difference since Q-6: "An object already copied out of a kept page is still reached at its copy." */
static uint32_t forward(world *w, uint32_t reference)
{
  if (reference == 0)
    return 0;
  if (is_copied(w, reference))
    return copy_of(w, reference);
  if (w->labels[reference / w->r.page] == w->new_label)
    return reference;
  if (may_copy(w, size_of(w->heap[reference])))
    return copy_object(w, reference);
  keep_page(w, reference / w->r.page);
  return reference;
}

/* A page that a hint word names, or 0. One that has joined is not current any more, so it joins once. */
static void read_hint(world *w, uint32_t page)
{
  if (page != 0) {
    join(w, page);
    w->hinted = w->hinted + 1;
  }
}

/* Step 1. */
static void read_hints(world *w, const uint32_t *hints, size_t hints_len)
{
  size_t i;
  for (i = 0; i < hints_len; i++) {
    read_hint(w, page_of_word(w, hints[i]));
    if (hints[i] >= 1)
      read_hint(w, page_of_word(w, hints[i] - 1));
  }
}

/* Step 2. */
static void forward_roots(world *w, uint32_t *roots, size_t roots_len)
{
  size_t i;
  for (i = 0; i < roots_len; i++)
    roots[i] = forward(w, roots[i]);
}

/* One object's references, in order. */
static void sweep_object(world *w, uint32_t object)
{
  uint32_t i;
  for (i = 0; i < refs_of(w->heap[object]); i++)
    w->heap[object + 1 + i] = forward(w, w->heap[object + 1 + i]);
}

/* Where the walk of a page goes on from this place; the place itself where it stops. Q-6: "The queue must step over such places by the length at
   the copy." */
static uint32_t next_place(const world *w, uint32_t at)
{
  if (is_copied(w, at))
    return at + size_of(w->heap[copy_of(w, at)]);
  if (is_header(w->heap, w->r, at))
    return at + size_of(w->heap[at]);
  return at;
}

/* Step 3. The queue and the page of copies grow while they are swept. */
static void sweep_queue(world *w)
{
  uint32_t next, at;
  for (next = 0; next < w->queued; next++) {
    uint32_t end = (w->queue[next] + 1) * w->r.page;
    at = end - w->r.page;
    while (at < end && next_place(w, at) != at) {
      if (!is_copied(w, at))
        sweep_object(w, at);
      at = next_place(w, at);
    }
  }
}

/* "At the end its old place becomes a filler of the same length, no references, zeros." */
static void put_filler(world *w, uint32_t place)
{
  uint32_t n = size_of(w->heap[copy_of(w, place)]), i;
  w->heap[place] = n * 65536 + 1;
  for (i = 1; i < n; i++)
    w->heap[place + i] = 0;
  w->fillers = w->fillers + 1;
}

/* The places copied out of are on kept pages; other pages with the new label have none. */
static void put_fillers(world *w)
{
  uint32_t next, at;
  for (next = 0; next < w->queued; next++) {
    uint32_t end = (w->queue[next] + 1) * w->r.page;
    at = end - w->r.page;
    while (at < end && next_place(w, at) != at) {
      if (is_copied(w, at))
        put_filler(w, at);
      at = next_place(w, at);
    }
  }
}

/* Step 4. */
static void free_old(world *w)
{
  uint32_t page, at;
  for (page = 1; page < w->r.pages; page++)
    if (w->labels[page] == w->r.label) {
      for (at = page * w->r.page; at < (page + 1) * w->r.page; at++)
        w->heap[at] = 0;
      w->labels[page] = 0;
    }
  for (page = 0; page < w->r.pages; page++)
    w->links[page] = 0;
  w->r.label = w->new_label;
  if (w->copy_page == 0) {
    w->r.opened = 0;
    w->r.fill = w->r.page;
  } else {
    w->r.opened = w->copy_page;
    w->r.fill = w->copy_fill;
  }
}

static model_collected collected(uint32_t refusal, const world *w, model_record r)
{
  model_collected c;
  c.refusal = refusal;
  c.hinted = refusal ? 0 : w->hinted;
  c.taken = refusal ? 0 : w->taken;
  c.objects = refusal ? 0 : w->objects;
  c.words = refusal ? 0 : w->words;
  c.kept = refusal ? 0 : w->kept;
  c.fillers = refusal ? 0 : w->fillers;
  c.record = r;
  return c;
}

model_collected model_collect(uint32_t *heap, size_t heap_len, uint16_t *labels, size_t labels_len, uint16_t *links, size_t links_len,
                              model_record r, uint32_t *roots, size_t roots_len, const uint32_t *hints, size_t hints_len)
{
  world w;
  size_t i;
  if (!good_layout(heap_len, labels, labels_len, links_len, r))
    return collected(layout, NULL, r);
  if (!is_sound(heap, labels, r))
    return collected(unsound, NULL, r);
  for (i = 0; i < roots_len; i++)
    if (!is_reference(heap, labels, r, roots[i]))
      return collected(bad_reference, NULL, r);
  w.heap = heap;
  w.labels = labels;
  w.links = links;
  w.r = r;
  w.new_label = r.label == 1 ? 2 : 1;
  w.queued = 0;
  w.copy_page = 0;
  w.copy_fill = 0;
  w.hinted = 0;
  w.taken = 0;
  w.objects = 0;
  w.words = 0;
  w.kept = 0;
  w.fillers = 0;
  read_hints(&w, hints, hints_len);
  forward_roots(&w, roots, roots_len);
  sweep_queue(&w);
  put_fillers(&w);
  free_old(&w);
  return collected(0, &w, w.r);
}

/* "Which page a word names (0 for none)." */
uint32_t model_page_named(uint32_t word, uint32_t page, uint32_t pages)
{
  if (!good_page(page) || !good_pages(pages))
    return 0;
  if (word / page < 1 || word / page > pages - 1)
    return 0;
  return word / page;
}

/* "and a second one for w - 1 (0 at w = 0)". */
uint32_t model_page_named_before(uint32_t word, uint32_t page, uint32_t pages)
{
  if (word == 0)
    return 0;
  return model_page_named(word - 1, page, pages);
}

/* "a collection takes at most 2*floor(W / (P + 1)) + 1 pages if W is at least 1, else none". */
static uint32_t most_pages_taken(uint32_t words, uint32_t page)
{
  if (words == 0)
    return 0;
  return 2 * (words / (page + 1)) + 1;
}

/* "How many pages a collection may need." Q-3: it "takes W and P instead; a bad P gives 4,294,967,295". */
uint32_t model_pages_needed(uint32_t words, uint32_t page)
{
  if (!good_page(page))
    return 4294967295u;
  return most_pages_taken(words, page);
}
