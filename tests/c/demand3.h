/* demand3.h: what must hold after a call, found by searching memory before and after it. See demand3.c. */
#ifndef DEMAND3_H
#define DEMAND3_H

#include <stddef.h>
#include <stdint.h>

/* Memory at one moment. */
typedef struct {
  const uint32_t *heap;
  size_t heap_len;
  const uint16_t *labels;
  size_t labels_len;
  const uint16_t *links;
  size_t links_len;
  const uint32_t *roots;
  size_t roots_len;
  uint32_t page, pages, label, opened, fill;
} demand3_memory;

/* NULL if the heap is sound, else the clause that fails. */
const char *demand3_unsound(const demand3_memory *m);

/* The start of the object that the word at `address` is a part of, header or payload; 0 if there is none. */
uint32_t demand3_object_at(const demand3_memory *m, uint32_t address);

/* What a collection with these hints may have to copy, and where to: the pages in use that no hint names, the words in objects on them, and
   the free pages. The heap is sound. */
typedef struct {
  uint32_t unhinted, words, free;
} demand3_room;

demand3_room demand3_room_for(const demand3_memory *before, const uint32_t *hints, size_t hints_len);

/* Every root cell is 0 or an object's address. */
int demand3_good_roots(const demand3_memory *m);

/* What was found of the pages that a collection kept for want of room, to tell how hard a case it was. All 0 where it kept none. */
typedef struct {
  uint32_t pages;     /* that were kept */
  uint32_t opened;    /* of these, the one that was open: 1, or 0 if it was none */
  uint32_t fillers;   /* places on them that objects were copied from */
  uint32_t by_kept;   /* of the pages, those that only what stayed on other kept pages reaches */
  uint32_t unreached; /* objects that stayed with their page, and that nothing had reached when it joined the search */
  uint32_t would_fit; /* objects that stayed and are no longer than what is left of the open page: copying was over */
  uint32_t own_copy;  /* references, of objects that stayed, to what was copied out of their own page */
} demand3_kept;

/* NULL if an accepted collection that made `after` of `before` is as demand 3 has it, else the clause that fails. The six counts are
   hinted, taken, objects, words, kept, fillers, as the collection answered them. What is found says nothing where a clause fails. */
const char *demand3_collection(const demand3_memory *before, const demand3_memory *after, const uint32_t *hints, size_t hints_len,
                               const uint32_t counts[6], demand3_kept *found);

#endif
