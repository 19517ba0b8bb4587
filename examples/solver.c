/* solver.c: a native solver in small. It makes an object, keeps no address of it but one a word past its header, in a local of its own; and an
   array that fills a page, of which it keeps the address just past the end, as a loop over it does. It collects with its stack as the hints:
   both stay where they are, and look-up leads from the derived addresses back to them. Then it collects without hints: they are gone.

   cc -Iinclude examples/solver.c target/staticlib/libsolver.a -o solver && ./solver

   The stack is read from a place in collect_with_stack's frame up to one in main's; it grows downward on x86-64. setjmp puts
   registers there too, as in Bartlett's paper. Exit status 0 if all was as it should be. */
#include "fouterpin.h"

#include <setjmp.h>
#include <stdio.h>
#include <stdlib.h>

enum { page = 16, pages = 30 };

/* Lent to every call, and no part of the stack: hints may overlap nothing else that is lent. */
static uint32_t heap[page * pages];
static uint16_t labels[pages], links[pages];
static uint32_t roots[1];
static fouterpin_record record;

#define LENT heap, page *pages, labels, pages, links, pages, record

/* The answer's value; ends the program where a call is refused that should not be. */
static uint32_t accepted(fouterpin_answer a, const char *call)
{
  if (a.refusal != 0) {
    printf("%s was refused with %u\n", call, (unsigned)a.refusal);
    exit(1);
  }
  record = a.record;
  return a.value;
}

/* Its own frame, the answer among it, lies below the words that it gives as hints. */
__attribute__((noinline)) static void collect(const uint32_t *hints, size_t hints_len)
{
  fouterpin_collected c = fouterpin_collect(LENT, roots, 1, hints, hints_len);
  if (c.refusal != 0) {
    printf("collect was refused with %u\n", (unsigned)c.refusal);
    exit(1);
  }
  record = c.record;
  printf("collected: %u pages stayed by hints, %u for want of room, %u objects were copied\n", (unsigned)c.hinted, (unsigned)c.kept,
         (unsigned)c.objects);
}

__attribute__((noinline)) static void collect_with_stack(const uint32_t *high)
{
  jmp_buf registers;
  const uint32_t *low = (const uint32_t *)&registers;
  if (setjmp(registers) == 0)
    collect(low, ((uintptr_t)high - (uintptr_t)low) / sizeof *low);
}

/* The object that an address leads back to: its own, or the one that it is inside. */
static uint32_t object_of(uint32_t derived)
{
  fouterpin_answer a = fouterpin_look_up(LENT, derived);
  return a.refusal == FOUTERPIN_INSIDE ? a.value : accepted(a, "look_up");
}

/* Makes the object and returns the address of the first payload word: one past the header. Data is 1234 at payload word 2. */
__attribute__((noinline)) static uint32_t make_sample(void)
{
  uint32_t object = accepted(fouterpin_allocate(LENT, 6, 1), "allocate");
  accepted(fouterpin_store(LENT, object, 2, 1234), "store");
  return object + 1;
}

/* Makes the array, a page long, and returns the address just past its end: a place on the next page. Its last word is 5678. */
__attribute__((noinline)) static uint32_t make_array(void)
{
  uint32_t array = accepted(fouterpin_allocate(LENT, page - 1, 0), "allocate");
  accepted(fouterpin_store(LENT, array, page - 2, 5678), "store");
  return array + page;
}

__attribute__((noinline)) static int solve(const uint32_t *high)
{
  volatile uint32_t inside, past; /* in memory, and so among the hints */
  uint32_t i, object, array, sample, last;
  fouterpin_answer a, b;
  accepted(fouterpin_start(LENT, page, pages), "start");
  for (i = 0; i < 12; i++) /* what nobody keeps */
    accepted(fouterpin_allocate(LENT, 5, 0), "allocate");
  inside = make_sample();
  past = make_array();
  roots[0] = accepted(fouterpin_allocate(LENT, 15, 15), "allocate");
  printf("the object is at %u, and a local holds %u; a root cell holds %u\n", (unsigned)inside - 1, (unsigned)inside, (unsigned)roots[0]);
  printf("the array is at %u, and a local holds %u, on page %u and just past page %u\n", (unsigned)past - page, (unsigned)past,
         (unsigned)fouterpin_page_named(past, page, pages), (unsigned)fouterpin_page_named_before(past, page, pages));
  collect_with_stack(high);
  object = object_of(inside);
  array = object_of(past - 1); /* just past the end another object may start; the last word is still inside */
  sample = accepted(fouterpin_load(LENT, object, 2), "load");
  last = accepted(fouterpin_load(LENT, array, page - 2), "load");
  printf("%u is inside the object at %u, whose payload word 2 is %u; the root cell holds %u\n", (unsigned)inside, (unsigned)object,
         (unsigned)sample, (unsigned)roots[0]);
  printf("%u is inside the array at %u, whose last word is %u\n", (unsigned)past - 1, (unsigned)array, (unsigned)last);
  if (object != inside - 1 || sample != 1234 || array != past - page || last != 5678)
    return 1;
  collect(roots, 0);
  a = fouterpin_look_up(LENT, inside);
  b = fouterpin_look_up(LENT, past - 1);
  printf("without hints: refusals %u and %u; the root cell holds %u\n", (unsigned)a.refusal, (unsigned)b.refusal, (unsigned)roots[0]);
  return a.refusal == FOUTERPIN_NO_OBJECT && b.refusal == FOUTERPIN_NO_OBJECT ? 0 : 1;
}

int main(void)
{
  uint32_t high = 0;
  int status = solve(&high);
  printf(status == 0 ? "both stayed while the stack held them\n" : "NOT as it should be\n");
  return status;
}
