/* plain.h: the calls of include/fouterpin.h by hand-written C, under names of its own. See plain.c. */
#ifndef PLAIN_H
#define PLAIN_H

#include "fouterpin.h"

fouterpin_answer plain_start(uint32_t *heap, size_t heap_len, uint16_t *labels, size_t labels_len, uint16_t *links, size_t links_len,
                             fouterpin_record r, uint32_t page, uint32_t pages);
fouterpin_answer plain_allocate(uint32_t *heap, size_t heap_len, uint16_t *labels, size_t labels_len, uint16_t *links, size_t links_len,
                                fouterpin_record r, uint32_t d, uint32_t p);
fouterpin_answer plain_look_up(const uint32_t *heap, size_t heap_len, const uint16_t *labels, size_t labels_len, const uint16_t *links,
                               size_t links_len, fouterpin_record r, uint32_t address);
fouterpin_answer plain_load(const uint32_t *heap, size_t heap_len, const uint16_t *labels, size_t labels_len, const uint16_t *links,
                            size_t links_len, fouterpin_record r, uint32_t address, uint32_t index);
fouterpin_answer plain_store(uint32_t *heap, size_t heap_len, uint16_t *labels, size_t labels_len, uint16_t *links, size_t links_len,
                             fouterpin_record r, uint32_t address, uint32_t index, uint32_t value);
fouterpin_collected plain_collect(uint32_t *heap, size_t heap_len, uint16_t *labels, size_t labels_len, uint16_t *links, size_t links_len,
                                  fouterpin_record r, uint32_t *roots, size_t roots_len, const uint32_t *hints, size_t hints_len);
uint32_t plain_page_named(uint32_t word, uint32_t page, uint32_t pages);
uint32_t plain_page_named_before(uint32_t word, uint32_t page, uint32_t pages);
uint32_t plain_pages_needed(uint32_t words, uint32_t page);

#endif
