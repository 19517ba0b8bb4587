/* demand3.c: demand 3, run. After an accepted collection there is a pairing of objects before with objects after; this file searches
   for it, knowing nothing of how a collection works: it shares no code with the model, the library or the driver.

   The search begins with the objects on hinted pages, each paired with its own address, and with the root cells, before with after;
   it follows the references of each pair side by side. Where two sides differ, no pairing exists, since each step was forced.

   Since Q-6 a page that was in use, that no hint names and that is in use after is a kept one. What stayed on it is not followed at first: so
   what is found then is what was reached before any page was kept, and every copy is among it. Then a kept page joins once it holds an object that
   stayed and is reached by now: its other objects stayed too, unless they are paired with a copy, and all that stayed is followed. In the end each
   kept page has joined, so they can be put in an order in which each holds an object reached without that page and those behind it. */
#include "demand3.h"

#include <stdlib.h>
#include <string.h>

/* Every address of an object, by its page's words: starts[a] is 1 if an object begins at a. The caller frees it. NULL if the memory's
   numbers are out of range, so that nothing below divides by 0 or leaves the arrays. */
static unsigned char *starts_of(const demand3_memory *m)
{
  unsigned char *starts;
  size_t page, at;
  int exponent, power_of_two = 0;
  for (exponent = 3; exponent <= 10; exponent++)
    power_of_two |= m->page == (uint32_t)1 << exponent;
  if (!power_of_two || m->pages < 3 || m->pages > 4096 || m->heap_len != (size_t)m->page * m->pages || m->labels_len != m->pages ||
      m->links_len != m->pages)
    return NULL;
  starts = calloc(m->heap_len, 1);
  if (starts == NULL)
    abort();
  for (page = 1; page < m->pages; page++) {
    size_t end = (page + 1) * m->page;
    if (m->labels[page] != m->label)
      continue;
    for (at = end - m->page; at < end;) {
      uint32_t total = m->heap[at] >> 16, references = (m->heap[at] & 0xffff) >> 1;
      if ((m->heap[at] & 1) == 0 || total == 0 || references + 1 > total || at + total > end)
        break;
      starts[at] = 1;
      at += total;
    }
  }
  return starts;
}

static const char *unsound(const demand3_memory *m, const unsigned char *starts)
{
  size_t page, at, i;
  if (m->label != 1 && m->label != 2)
    return "record: label";
  if (m->opened >= m->pages || (m->opened == 0 ? m->fill != m->page : m->fill < 1 || m->fill > m->page))
    return "record: open page and fill";
  if (m->opened != 0 && m->labels[m->opened] != m->label)
    return "record: the open page's label";
  if (m->labels[0] != 0)
    return "page 0 is not free";
  for (page = 0; page < m->pages; page++) {
    size_t first = page * m->page, end = first + m->page, last = first;
    if (m->labels[page] != 0 && m->labels[page] != m->label)
      return "a label is neither 0 nor current";
    if (m->labels[page] != 0) {
      if (!starts[first])
        return "a page in use has no object";
      for (at = first; at < end; at++)
        if (starts[at])
          last = at + (m->heap[at] >> 16);
    }
    if (page == m->opened && page != 0 && last != first + m->fill)
      return "the open page's objects do not end at fill";
    for (at = last; at < end; at++)
      if (m->heap[at] != 0)
        return m->labels[page] == 0 ? "a free page is not all zeros" : "a word behind a page's objects is not zero";
  }
  for (at = 0; at < m->heap_len; at++)
    if (starts[at])
      for (i = 0; i < (m->heap[at] & 0xffff) >> 1; i++) {
        uint32_t reference = m->heap[at + 1 + i];
        if (reference != 0 && (reference >= m->heap_len || !starts[reference]))
          return "a reference is neither 0 nor an object";
      }
  return NULL;
}

const char *demand3_unsound(const demand3_memory *m)
{
  unsigned char *starts = starts_of(m);
  const char *why;
  if (starts == NULL)
    return "record: page size, pages or lengths";
  why = unsound(m, starts);
  free(starts);
  return why;
}

uint32_t demand3_object_at(const demand3_memory *m, uint32_t address)
{
  unsigned char *starts = starts_of(m);
  uint32_t object = 0;
  size_t at;
  if (starts == NULL)
    return 0;
  for (at = 0; at < m->heap_len; at++)
    if (starts[at] && at <= address && address - at < m->heap[at] >> 16)
      object = (uint32_t)at;
  free(starts);
  return object;
}

/* The search: image[a] is the address after of the object at a before, 0 if not (yet) paired; preimage the other way. The list holds
   the addresses before that are paired and not yet followed. hinted, kept and joined are by page; filler[a] is 1 if a filler stands at a after. */
typedef struct {
  const demand3_memory *before, *after;
  unsigned char *starts_before, *starts_after, *hinted, *kept, *joined, *filler;
  uint32_t *image, *preimage, *list;
  size_t listed, followed, listed_first; /* the last: how many were listed before any kept page had joined */
  demand3_kept found;
} search;

static uint32_t size_at(const demand3_memory *m, size_t at) { return m->heap[at] >> 16; }

/* The object at a, before, stayed on a kept page. */
static int stayed_for_room(const search *s, size_t a)
{
  return s->kept[a / s->before->page] && s->image[a] == a;
}

/* The word a before and the word b after must be both nil or a pair. */
static const char *must_pair(search *s, uint32_t a, uint32_t b, const char *not_nil, const char *no_object, const char *not_one_to_one)
{
  if (a == 0 || b == 0)
    return a == b ? NULL : not_nil;
  if (a >= s->before->heap_len || b >= s->after->heap_len || !s->starts_before[a] || !s->starts_after[b])
    return no_object;
  if (s->image[a] == b && s->preimage[b] == a)
    return NULL;
  if (s->image[a] != 0 || s->preimage[b] != 0)
    return not_one_to_one;
  s->image[a] = b;
  s->preimage[b] = a;
  s->list[s->listed++] = a;
  return NULL;
}

static const char *follow(search *s, uint32_t a)
{
  uint32_t b = s->image[a];
  const uint32_t *x = s->before->heap + a, *y = s->after->heap + b;
  uint32_t total = x[0] >> 16, references = (x[0] & 0xffff) >> 1, i;
  const char *why;
  if (total != y[0] >> 16)
    return "sizes of a pair differ";
  if (references != (y[0] & 0xffff) >> 1)
    return "numbers of references of a pair differ";
  if (memcmp(x + 1 + references, y + 1 + references, (total - 1 - references) * sizeof *x) != 0)
    return "data words of a pair differ";
  for (i = 1; i <= references; i++) {
    why = must_pair(s, x[i], y[i], "a reference is nil on one side only", "a reference is no object", "references break the pairing");
    if (why != NULL)
      return why;
  }
  if (s->hinted[a / s->before->page] && a != b)
    return "an object on a hinted page has moved";
  return NULL;
}

/* Follows what was listed, but for what stayed on kept pages: that is followed when its page joins. */
static const char *follow_listed(search *s)
{
  const char *why;
  while (s->followed < s->listed) {
    uint32_t a = s->list[s->followed++];
    if (stayed_for_room(s, a))
      continue;
    why = follow(s, a);
    if (why != NULL)
      return why;
  }
  return NULL;
}

/* What hints and roots reach by way of objects on hinted pages and of copies. */
static const char *search_first(search *s)
{
  size_t at, i;
  const char *why;
  if (s->before->roots_len != s->after->roots_len)
    return "the number of roots differs";
  for (at = 0; at < s->before->heap_len; at++)
    if (s->starts_before[at] && s->hinted[at / s->before->page]) {
      why = must_pair(s, (uint32_t)at, (uint32_t)at, "nil", "an object on a hinted page is gone", "hinted objects break the pairing");
      if (why != NULL)
        return why;
    }
  for (i = 0; i < s->before->roots_len; i++) {
    why = must_pair(s, s->before->roots[i], s->after->roots[i], "a root is nil on one side only", "a root is no object", "roots break the pairing");
    if (why != NULL)
      return why;
  }
  why = follow_listed(s);
  s->listed_first = s->listed;
  return why;
}

static int holds_a_reached_one(const search *s, size_t page)
{
  size_t at;
  for (at = page * s->before->page; at < (page + 1) * s->before->page; at++)
    if (s->starts_before[at] && stayed_for_room(s, at))
      return 1;
  return 0;
}

/* What stayed on a kept page, reached or not, and what that reaches. */
static const char *join_kept(search *s, size_t page)
{
  size_t at, first = page * s->before->page, end = first + s->before->page;
  const char *why;
  s->joined[page] = 1;
  for (at = first; at < end; at++)
    if (s->starts_before[at] && s->image[at] == 0) {
      why = must_pair(s, (uint32_t)at, (uint32_t)at, "nil", "an object on a kept page is gone", "kept objects break the pairing");
      if (why != NULL)
        return why;
      s->found.unreached++;
    }
  for (at = first; at < end; at++)
    if (s->starts_before[at] && stayed_for_room(s, at)) {
      why = follow(s, (uint32_t)at);
      if (why != NULL)
        return why;
    }
  return follow_listed(s);
}

static const char *search_kept(search *s)
{
  size_t page, i;
  const char *why;
  int more = 1;
  for (page = 1; page < s->before->pages; page++)
    s->found.by_kept += s->kept[page] && !holds_a_reached_one(s, page);
  while (more) {
    more = 0;
    for (page = 1; page < s->before->pages; page++)
      if (s->kept[page] && !s->joined[page] && holds_a_reached_one(s, page)) {
        more = 1;
        why = join_kept(s, page);
        if (why != NULL)
          return why;
      }
  }
  for (page = 1; page < s->before->pages; page++)
    if (s->kept[page] && !s->joined[page])
      return "a page was kept that nothing reaches";
  for (i = s->listed_first; i < s->listed; i++)
    if (s->image[s->list[i]] != s->list[i])
      return "an object was copied that only kept pages reach";
  return NULL;
}

/* Where an object was copied from a page that was kept, a filler stands, and nothing leads to it. */
static const char *search_fillers(search *s)
{
  const uint32_t *heap = s->after->heap;
  size_t at, i;
  for (at = 0; at < s->before->heap_len; at++) {
    if (!s->starts_before[at] || !s->kept[at / s->before->page] || s->image[at] == at)
      continue;
    if (!s->starts_after[at] || size_at(s->after, at) != size_at(s->before, at))
      return "a filler has another length";
    if ((heap[at] & 0xffff) != 1)
      return "a filler has references";
    for (i = 1; i < size_at(s->after, at); i++)
      if (heap[at + i] != 0)
        return "a filler is not all zeros";
    if (s->preimage[at] != 0)
      return "a filler was reached";
    s->filler[at] = 1;
    s->found.fillers++;
  }
  return NULL;
}

static const char *search_pairs(search *s)
{
  size_t at;
  const char *why = search_first(s);
  if (why == NULL)
    why = search_kept(s);
  if (why == NULL)
    why = search_fillers(s);
  if (why != NULL)
    return why;
  for (at = 0; at < s->after->heap_len; at++)
    if (s->starts_after[at] && s->preimage[at] == 0 && !s->filler[at])
      return "an object remains that was not reached";
  return NULL;
}

/* a page is kept only "when a copy fits neither the copy page nor a free page". The first one was kept for an object that was reached
   before any, and the open page is as full as it was then. */
static const char *kept_for_room(search *s)
{
  const demand3_memory *b = s->before, *a = s->after;
  size_t page, at, i;
  uint32_t room = a->page - a->fill;
  int too_long = 0;
  for (page = 1; page < b->pages; page++)
    if (b->labels[page] == 0 && a->labels[page] == 0)
      return "a page was kept while one was free";
  for (i = 0; i < s->listed_first; i++)
    too_long |= stayed_for_room(s, s->list[i]) && size_at(b, s->list[i]) > room;
  if (!too_long)
    return "a page was kept for a copy that would have fit";
  for (at = 0; at < b->heap_len; at++)
    if (s->starts_before[at] && stayed_for_room(s, at)) {
      s->found.would_fit += size_at(b, at) <= room;
      for (i = 1; i <= (b->heap[at] & 0xffff) >> 1; i++)
        s->found.own_copy += b->heap[at + i] / b->page == at / b->page && s->image[b->heap[at + i]] != b->heap[at + i];
    }
  return NULL;
}

static demand3_room room_for(const demand3_memory *m, const unsigned char *starts, const unsigned char *hinted)
{
  demand3_room room = {0, 0, 0};
  size_t page, at;
  for (page = 1; page < m->pages; page++) {
    room.free += m->labels[page] == 0;
    room.unhinted += m->labels[page] != 0 && !hinted[page];
  }
  for (at = 0; at < m->heap_len; at++)
    if (starts[at] && !hinted[at / m->page])
      room.words += m->heap[at] >> 16;
  return room;
}

/* Q-3's bound: two copy pages in a row hold at least one word more than a page does, so each two are paid for by so many words, and one
   more by what is left. */
static uint32_t most_taken(const search *s)
{
  uint32_t words = room_for(s->before, s->starts_before, s->hinted).words;
  return words == 0 ? 0 : 1 + words / (s->before->page + 1) * 2;
}

/* An object begins a page of copies only if it did not fit the page of copies before it, the next lower one. */
static const char *spread(const search *s)
{
  const demand3_memory *b = s->before, *a = s->after;
  size_t page, at, left = 0; /* words left on the last page of copies */
  for (page = 1; page < a->pages; page++)
    if (b->labels[page] == 0 && a->labels[page] != 0) {
      if (size_at(a, page * a->page) <= left)
        return "an object began a page though it fits the one before";
      left = a->page;
      for (at = page * a->page; at < (page + 1) * a->page; at++)
        left -= s->starts_after[at] ? size_at(a, at) : 0;
    }
  return NULL;
}

/* Pages in use after, the counts, and what else document 01 says of the state that a collection leaves. */
static const char *pages_and_counts(search *s, const uint32_t counts[6])
{
  const demand3_memory *b = s->before, *a = s->after;
  uint32_t hinted = 0, taken = 0, objects = 0, words = 0;
  const char *why;
  size_t page, at;
  for (page = 1; page < a->pages; page++) {
    int copies = 0;
    hinted += s->hinted[page];
    s->found.pages += s->kept[page];
    s->found.opened += s->kept[page] && page == b->opened;
    for (at = page * a->page; at < (page + 1) * a->page; at++)
      if (s->starts_after[at] && !s->filler[at] && s->preimage[at] != at) {
        copies = 1;
        objects++;
        words += a->heap[at] >> 16;
      }
    if (a->labels[page] != 0 && !s->hinted[page] && !s->kept[page] && !copies)
      return "a page in use was neither hinted nor kept and holds no copy";
    if (a->labels[page] == 0 && s->hinted[page])
      return "a hinted page was freed";
    if (s->hinted[page] && copies)
      return "a copy lies on a hinted page";
    if (s->kept[page] && copies)
      return "a copy lies on a kept page";
    taken += a->labels[page] != 0 && !s->hinted[page] && !s->kept[page];
  }
  if (taken > most_taken(s))
    return "more pages were taken than the bound";
  why = spread(s);
  if (why == NULL && s->found.pages != 0)
    why = kept_for_room(s);
  if (why != NULL)
    return why;
  if (counts[0] != hinted)
    return "the count of pages hinted is wrong";
  if (counts[1] != taken)
    return "the count of pages taken is wrong";
  if (counts[2] != objects)
    return "the count of objects copied is wrong";
  if (counts[3] != words)
    return "the count of words copied is wrong";
  if (counts[4] != s->found.pages)
    return "the count of pages kept is wrong";
  if (counts[5] != s->found.fillers)
    return "the count of fillers is wrong";
  if (a->label != 3 - b->label)
    return "the label has not changed";
  if (taken == 0 ? a->opened != 0 : a->opened == 0 || s->hinted[a->opened] || s->kept[a->opened])
    return "the open page is none that was taken";
  for (page = 0; page < a->pages; page++)
    if (a->links[page] != 0)
      return "a link is not 0";
  return NULL;
}

/* The page of this place is hinted, if it is one in use. */
static void hold(const demand3_memory *m, unsigned char *hinted, size_t place)
{
  if (place >= m->page && place < m->heap_len && m->labels[place / m->page] == m->label)
    hinted[place / m->page] = 1;
}

static void *fresh(size_t count, size_t size)
{
  void *p = calloc(count + 1, size);
  if (p == NULL)
    abort();
  return p;
}

/* hinted[n] is 1 if a hint names page n. The caller frees it. */
static unsigned char *hinted_pages(const demand3_memory *m, const uint32_t *hints, size_t hints_len)
{
  unsigned char *hinted = fresh(m->pages, 1);
  size_t i;
  for (i = 0; i < hints_len; i++) {
    hold(m, hinted, hints[i]);
    if (hints[i] != 0)
      hold(m, hinted, (size_t)hints[i] - 1);
  }
  return hinted;
}

/* kept[n] is 1 if page n was in use, no hint names it, and it is in use after. The caller frees it. */
static unsigned char *kept_pages(const demand3_memory *before, const demand3_memory *after, const unsigned char *hinted)
{
  unsigned char *kept = fresh(before->pages, 1);
  size_t page;
  for (page = 1; page < before->pages; page++)
    kept[page] = before->labels[page] != 0 && after->labels[page] != 0 && !hinted[page];
  return kept;
}

int demand3_good_roots(const demand3_memory *m)
{
  unsigned char *starts = starts_of(m);
  int good = starts != NULL;
  size_t i;
  for (i = 0; good && i < m->roots_len; i++)
    good = m->roots[i] == 0 || (m->roots[i] < m->heap_len && starts[m->roots[i]]);
  free(starts);
  return good;
}

demand3_room demand3_room_for(const demand3_memory *before, const uint32_t *hints, size_t hints_len)
{
  unsigned char *starts = starts_of(before), *hinted = hinted_pages(before, hints, hints_len);
  demand3_room room = room_for(before, starts, hinted);
  free(starts);
  free(hinted);
  return room;
}

const char *demand3_collection(const demand3_memory *before, const demand3_memory *after, const uint32_t *hints, size_t hints_len,
                               const uint32_t counts[6], demand3_kept *found)
{
  search s;
  const char *why = demand3_unsound(before);
  if (why != NULL)
    return "the heap before was not sound";
  why = demand3_unsound(after);
  if (why != NULL)
    return why;
  if (before->page != after->page || before->pages != after->pages)
    return "page size or pages have changed";
  s.before = before;
  s.after = after;
  s.starts_before = starts_of(before);
  s.starts_after = starts_of(after);
  s.hinted = hinted_pages(before, hints, hints_len);
  s.kept = kept_pages(before, after, s.hinted);
  s.joined = fresh(before->pages, 1);
  s.filler = fresh(before->heap_len, 1);
  s.image = fresh(before->heap_len, sizeof *s.image);
  s.preimage = fresh(before->heap_len, sizeof *s.preimage);
  s.list = fresh(before->heap_len, sizeof *s.list);
  s.listed = 0;
  s.followed = 0;
  s.listed_first = 0;
  memset(&s.found, 0, sizeof s.found);
  why = search_pairs(&s);
  if (why == NULL)
    why = pages_and_counts(&s, counts);
  free(s.starts_before);
  free(s.starts_after);
  *found = s.found;
  free(s.hinted);
  free(s.kept);
  free(s.joined);
  free(s.filler);
  free(s.image);
  free(s.preimage);
  free(s.list);
  return why;
}
