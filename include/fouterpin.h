/* fouterpin.h: the calls of Fouterpin, a mostly-copying collected heap (Bartlett 1988), for C.

   The functions are those of the crate `solver_c`; each is proved equal to document 01's rules, with, for every input.
   `tools/archive` writes the archive target/staticlib/libsolver.a, for x86-64 Linux. Of C's library it wants memset, memcpy and memmove
   at most, and no other; it allocates nothing, keeps no state between calls and never ends the program. Each takes a few hundred bytes of
   stack. A C program links it as it is:

       cc -Iinclude program.c target/staticlib/libsolver.a -o program

   with or without -static, -pie and -fPIE. On an Arm machine compile with x86_64-linux-gnu-gcc -static and run by qemu-x86_64.

   WORDS AND ADDRESSES. The heap is an array of 32-bit words in `pages` pages of `page` words. An address is a word's place in that array, no
   pointer: address a is heap[a]. Page 0 is never given out, so address 0 is nil. An object of d payload words, the first p of them
   references, takes d + 1 words; its address is that of its header, and payload word i is heap[address + 1 + i].

   LENT MEMORY. Every call is lent the caller's arrays for its own length only; nothing is kept after it returns, so the caller may
   move or free them between calls, as long as the next call sees the same words in arrays of the same lengths.
     heap    exactly page * pages words      the objects
     labels  exactly pages 16-bit numbers    0 for a free page, else the current label, 1 or 2
     links   exactly pages 16-bit numbers    the collection's queue; scratch, no answer depends on what it held
     roots   any number of words             collect alone: cells that hold 0 or an object's address; collect corrects them
     hints   any number of words             collect alone: any words, such as the stack and the registers; never written
   A length is checked and not trusted, but it must be true: the array behind a pointer has at least that many elements. A pointer is
   never NULL and is aligned for its type, even where its length is 0 (then nothing is read or written through it). No two arrays of one
   call overlap; hints are no exception. The calls hold no lock: calls on one heap are made one at a time, calls on different heaps
   need not be.

   THE RECORD goes in by value and comes back in the answer. Give each call the record that the last one returned, after a refusal too
   (it is then the one given). Its fields are for reading; any other numbers in it are refused with 1 or, where they are valid
   (fouterpin_start alone takes any), believed.

   LIFETIME OF AN OBJECT. Between collections no object moves. A collection keeps the objects on pages that a hint names (the page of
   the hint word and that of the word before it), where they are; it moves every other object that can be reached from those or from a
   root cell, as long as there is room for a copy; it forgets the rest and zeroes their pages. Once there is no room for a copy it moves nothing
   more: the page of each object that is still reached is kept, with everything on it that was not moved, reached or not, and with what that
   reaches in turn. Where an object was moved from a page that was kept after, a filler is left: an object of the same length, no references and
   zeros, that nothing refers to. A filler is forgotten as any other object is, by the next collection, unless its page is then hinted or kept.
   After a collection an address is good only if it was read from a root cell, read from a reference of an object that is still there, or named an
   object on a hinted page. The answer does not say which pages were kept. fouterpin_load and fouterpin_store refuse what is no object's address,
   and say whether it is inside an object or nothing is there; but a stale address may by chance be another object's, or inside one. Where a filler
   was left, the stale address is the filler's: a load gives 0, a store is accepted, and the object that moved knows nothing of it.

   REFUSALS. Each answer begins with a refusal number, 0 where the call was accepted. A refused call has changed nothing: not one
   word, label, link or root; its record is the one given, and its value (for collect, its six counts) is 0, except with 10: there it is
   the address of the object that the address given is inside. Tests go in the order of the numbers, with 10 in the place of 4, except that
   collect tests 1, 7, 6. No call gives 8 (since Q-6; before, collect did) or 9 (the session program does). */
#ifndef FOUTERPIN_H
#define FOUTERPIN_H

#include <stddef.h>
#include <stdint.h>

#ifdef __cplusplus
extern "C" {
#endif

enum {
  FOUTERPIN_ACCEPTED = 0,
  FOUTERPIN_LAYOUT = 1,        /* all six: a wrong length, page size, number of pages or record */
  FOUTERPIN_SHAPE = 2,         /* allocate: d is above page - 1, or p above d */
  FOUTERPIN_COLLECT_FIRST = 3, /* allocate: it does not fit in the open page, and with a new one over a third of `pages` would be in use */
  FOUTERPIN_NO_OBJECT = 4,     /* load, store, look_up: nothing is there; the address is neither an object's nor inside one */
  FOUTERPIN_INDEX = 5,         /* load, store: the index is not below d */
  FOUTERPIN_BAD_REFERENCE = 6, /* store: a value for a reference, collect: a root cell, that is neither 0 nor an object's address */
  FOUTERPIN_UNSOUND = 7,       /* collect: the heap is damaged (the whole of it is tested first) */
  FOUTERPIN_NO_ROOM = 8,       /* given by no call since Q-6: collect is never refused for room. The name is left for programs that ask for it */
  FOUTERPIN_INSIDE = 10        /* load, store, look_up: the address is inside an object, behind its header; the value is its address */
};

/* The control record. */
typedef struct {
  uint32_t page;   /* P, words in a page: a power of two from 8 to 1,024 */
  uint32_t pages;  /* T, pages in the heap: 3 to 4,096 */
  uint32_t label;  /* the current label, 1 or 2: that of every page in use */
  uint32_t opened; /* the open page, where allocate puts objects: 1 to T - 1, or 0 for none */
  uint32_t fill;   /* the first unused word's place in the open page: 1 to P; P where there is none */
} fouterpin_record;

/* What start, allocate, look_up, load and store answer. */
typedef struct {
  uint32_t refusal; /* 0, or why the call was refused */
  uint32_t value;   /* allocate and look_up: the object's address; load: the word; start and store: 0. Refused with 10: the address of the
                       object that the address given is inside; with any other: 0 */
  fouterpin_record record;
} fouterpin_answer;

/* What collect answers. */
typedef struct {
  uint32_t refusal;
  uint32_t hinted;  /* pages that hints named: these stayed in place */
  uint32_t taken;   /* free pages that were taken for copies */
  uint32_t objects; /* objects copied */
  uint32_t words;   /* words copied, headers among them */
  uint32_t kept;    /* pages that were kept because there was no room for a copy; no hinted page is among them. 0: everything that is not on a
                       hinted page and was reached has moved */
  uint32_t fillers; /* fillers left on kept pages, in the places of objects that had been copied by then */
  fouterpin_record record;
} fouterpin_collected;

/* Begins a heap of `pages` pages of `page` words, 0 for 64 (128 before Q-5): zeroes heap, labels and links, whatever they held. The record
   given may be any; the one that comes back is the heap's first. Refused: 1. */
fouterpin_answer fouterpin_start(uint32_t *heap, size_t heap_len, uint16_t *labels, size_t labels_len, uint16_t *links, size_t links_len,
                                 fouterpin_record r, uint32_t page, uint32_t pages);

/* Makes an object of d payload words, all 0, the first p of them references; its address is the value. It lives until a collection
   does not reach it. Writes the header and d words, and the label of a page that it takes; nothing else. Refused: 1, 2, 3. After 3,
   collect and try again; if 3 comes again, let go of some of what is held by roots and hints and collect once more, which is never refused for
   room; or lend a larger heap. */
fouterpin_answer fouterpin_allocate(uint32_t *heap, size_t heap_len, uint16_t *labels, size_t labels_len, uint16_t *links, size_t links_len,
                                    fouterpin_record r, uint32_t d, uint32_t p);

/* Where `address` lands, which may be any word: accepted if it is an object's, which is then the value; refused with 10 if it is inside an
   object, on one of its payload words, and the value is that object's address; refused with 4 if it is neither: on page 0, on a page that is
   free, behind the last object of a page in use, or past the heap. So an address derived from an object's leads back to it, as long as it
   has not gone past its end. Writes nothing. Refused: 1, 4, 10.
   To tell what an address is, the headers on its page are read from the first up to the address, and no word behind it: here, in load and
   store, and for a value that store takes for a reference. */
fouterpin_answer fouterpin_look_up(const uint32_t *heap, size_t heap_len, const uint16_t *labels, size_t labels_len, const uint16_t *links,
                                   size_t links_len, fouterpin_record r, uint32_t address);

/* The payload word at `index`, from 0, of the object at `address`. Writes nothing. Refused: 1, 4 or 10, 5. */
fouterpin_answer fouterpin_load(const uint32_t *heap, size_t heap_len, const uint16_t *labels, size_t labels_len, const uint16_t *links,
                                size_t links_len, fouterpin_record r, uint32_t address, uint32_t index);

/* Writes that word and nothing else. Where it is a reference (index < p), the value must be 0 or an object's address; else any number
   goes, and no collection follows or corrects it. Refused: 1, 4 or 10, 5, 6. A value for a reference that is inside an object is 6 too. */
fouterpin_answer fouterpin_store(uint32_t *heap, size_t heap_len, uint16_t *labels, size_t labels_len, uint16_t *links, size_t links_len,
                                 fouterpin_record r, uint32_t address, uint32_t index, uint32_t value);

/* Collects. Every page in use that holds the place of a hint word, or the place before it, stays, with all of its objects; everything
   else that is reached from there or from the root cells is copied together, and every reference and root cell is corrected; all other
   pages are zeroed and freed. A hint may be any word: an address inside an object, or just past its last word, keeps it as well as its
   own, and a number that is no address does no harm but to keep a page, or two. Refused: 1, 7, 6. A sound heap whose root cells are good is always
   collected, however full it is: where a copy fits neither the page of copies nor a free page, nothing more is copied, and the page of each
   object that is still reached is kept, with all that was not copied from it; `kept` and `fillers` count what came of it (LIFETIME OF AN OBJECT). No
   page is kept where fouterpin_pages_needed(W, page) is at most the number of free pages, page 0 aside; W is the number of words in objects, reached or not,
   on pages in use that no hint names. */
fouterpin_collected fouterpin_collect(uint32_t *heap, size_t heap_len, uint16_t *labels, size_t labels_len, uint16_t *links, size_t links_len,
                                      fouterpin_record r, uint32_t *roots, size_t roots_len, const uint32_t *hints, size_t hints_len);

/* A hint word names two pages, its own and that of the word before it, so that an address just past the end of an object keeps the object.
   These two calls say which: the page, 1 to pages - 1, in which the place `word` lies, and that in which the place word - 1 lies; mostly they
   are one. 0 if there is none (always where word is 0, for the second), and if `page` or `pages` is bad (0 is bad here). They look at no
   label: the page may be free. Refuse nothing. */
uint32_t fouterpin_page_named(uint32_t word, uint32_t page, uint32_t pages);
uint32_t fouterpin_page_named_before(uint32_t word, uint32_t page, uint32_t pages);

/* How many free pages a collection may need if so many words, headers among them, are in objects on pages in use that no hint names: 0
   for 0, else 2 * (words / (page + 1)) + 1, since two pages of copies in a row hold at least page + 1 words. With `page` 8 it is 1 for 1 to
   8 words and 3 for 9 to 17. With so many free pages it keeps none for want of room. 4,294,967,295 if `page` is bad (0 is bad here). Refuses
   nothing. */
uint32_t fouterpin_pages_needed(uint32_t words, uint32_t page);

#ifdef __cplusplus
}
#endif

#endif
