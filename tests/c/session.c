/* session.c: document 01's session program over the model (tests/c/model.c), with request Q-2's operation 8, written from the documents alone.
   tests/run-sessions sees that it prints what the compiled program prints; where a request of document 02 moves an answer, it says what the
   new one is.

   session < records */
#include "model.h"

#include <inttypes.h>
#include <stdio.h>
#include <string.h>

enum { most_records = 8000, most_words = 8192, most_pages = 255, slots = 16, bad_record = 9 };

static uint32_t heap[most_words];
static uint16_t labels[most_pages], links[most_pages];
static model_record rec;
static uint32_t roots[slots], hints[slots];
static int started;

/* What the last accepted start asked for is lent. */
#define LENT heap, (size_t)rec.page *rec.pages, labels, rec.pages, links, rec.pages, rec

/* A start on memory of the size that it asks for. "Refusal 9 comes first, but after 1 for a start": a page size or number of pages that is
   none is refused 1 whatever the product. */
static model_answer start(uint32_t page, uint32_t pages)
{
  static uint32_t fresh_heap[1024 * most_pages];
  static uint16_t fresh_labels[most_pages], fresh_links[most_pages];
  uint32_t words = model_page_at_start(page);
  model_answer a;
  if (words > 1024)
    words = 0; /* refused 1 whatever is lent */
  a = model_start(fresh_heap, (size_t)words * pages, fresh_labels, pages, fresh_links, pages, rec, page, pages);
  if (a.refusal != 0)
    return a;
  if (words * pages > most_words) {
    a.refusal = bad_record;
    return a;
  }
  memset(heap, 0, sizeof heap);
  memset(labels, 0, sizeof labels);
  memset(links, 0, sizeof links);
  memset(roots, 0, sizeof roots);
  memset(hints, 0, sizeof hints);
  rec = a.record;
  started = 1;
  return a;
}

static model_answer refused(uint32_t refusal)
{
  model_answer a;
  a.refusal = refusal;
  a.value = 0;
  a.record = rec;
  return a;
}

static model_answer accepted(uint32_t value)
{
  model_answer a = refused(0);
  a.value = value;
  return a;
}

/* The model's answer, whose record is the one to give next. */
static model_answer called(model_answer a)
{
  rec = a.record;
  return a;
}

static model_answer perform(uint32_t operation, uint32_t x, uint32_t y, uint32_t i, uint32_t v)
{
  static const int uses_x[] = {0, 1, 1, 1, 1, 1, 1, 0, 1}, uses_y[] = {0, 0, 1, 0, 0, 1, 0, 0, 0};
  model_answer a;
  model_collected c;
  if (operation > 8)
    return refused(bad_record);
  if (operation == 0)
    return start(v, i);
  if ((uses_x[operation] && x >= slots) || (uses_y[operation] && y >= slots) || !started)
    return refused(bad_record);
  switch (operation) {
  case 1:
    a = called(model_allocate(LENT, i, y));
    if (a.refusal == 0)
      roots[x] = a.value;
    return a;
  case 2: return called(model_store(LENT, roots[x], i, roots[y]));
  case 3: return called(model_store(LENT, roots[x], i, v));
  case 4: return called(model_load(LENT, roots[x], i));
  case 5: return accepted(hints[x] = roots[y] + v);
  case 6: return accepted(roots[x] = 0);
  case 7:
    c = model_collect(LENT, roots, slots, hints, slots);
    rec = c.record;
    return c.refusal != 0 ? refused(c.refusal) : accepted(c.words);
  default: return called(model_look_up(LENT, roots[x] + v));
  }
}

int main(void)
{
  uint32_t records, counts[2] = {0, 0};
  for (records = 0; records < most_records; records++) {
    unsigned char b[8];
    size_t n = fread(b, 1, sizeof b, stdin);
    model_answer a;
    if (n == 0)
      break;
    a = n < sizeof b ? refused(bad_record)
                     : perform(b[0], b[1], b[2], b[3], b[4] | (uint32_t)b[5] << 8 | (uint32_t)b[6] << 16 | (uint32_t)b[7] << 24);
    counts[a.refusal != 0]++;
    printf("%" PRIu32 " %" PRIu32 " %" PRIu32 "\n", records, a.refusal, a.value);
  }
  printf("end %" PRIu32 " %" PRIu32 " %" PRIu32 "\n", records, counts[0], counts[1]);
  return 0;
}
