/* model.h: the calls of document 01, with, as a plain model in C, written from the words alone. See model.c. The types have the
   fields of include/fouterpin.h's, so that one driver speaks to both. */
#ifndef MODEL_H
#define MODEL_H

#include <stddef.h>
#include <stdint.h>

typedef struct {
  uint32_t page, pages, label, opened, fill;
} model_record;

typedef struct {
  uint32_t refusal, value;
  model_record record;
} model_answer;

typedef struct {
  uint32_t refusal, hinted, taken, objects, words, kept, fillers;
  model_record record;
} model_collected;

model_answer model_start(uint32_t *heap, size_t heap_len, uint16_t *labels, size_t labels_len, uint16_t *links, size_t links_len,
                         model_record r, uint32_t page, uint32_t pages);
model_answer model_allocate(uint32_t *heap, size_t heap_len, uint16_t *labels, size_t labels_len, uint16_t *links, size_t links_len,
                            model_record r, uint32_t d, uint32_t p);
model_answer model_look_up(const uint32_t *heap, size_t heap_len, const uint16_t *labels, size_t labels_len, const uint16_t *links,
                           size_t links_len, model_record r, uint32_t address);
model_answer model_load(const uint32_t *heap, size_t heap_len, const uint16_t *labels, size_t labels_len, const uint16_t *links,
                        size_t links_len, model_record r, uint32_t address, uint32_t index);
model_answer model_store(uint32_t *heap, size_t heap_len, uint16_t *labels, size_t labels_len, uint16_t *links, size_t links_len,
                         model_record r, uint32_t address, uint32_t index, uint32_t value);
model_collected model_collect(uint32_t *heap, size_t heap_len, uint16_t *labels, size_t labels_len, uint16_t *links, size_t links_len,
                              model_record r, uint32_t *roots, size_t roots_len, const uint32_t *hints, size_t hints_len);
uint32_t model_page_named(uint32_t word, uint32_t page, uint32_t pages);
uint32_t model_page_named_before(uint32_t word, uint32_t page, uint32_t pages);
uint32_t model_pages_needed(uint32_t words, uint32_t page);
uint32_t model_page_at_start(uint32_t page); /* the words to a page that a start's P means; no call of its own */

#endif
