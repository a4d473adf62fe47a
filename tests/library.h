/* The library's C boundary as the tests call it, written out here from document 01 and not taken from the
 * installed header: header.c then shows that the header says the same. Lengths count entries. */
#ifndef TESTS_LIBRARY_H
#define TESTS_LIBRARY_H

#include <stddef.h>
#include <stdint.h>

uint64_t boundary_map_start(uint16_t *lines, size_t lines_len, uint16_t *nodes, size_t nodes_len,
                            uint16_t *listings, size_t listings_len);
uint64_t boundary_map_insert(uint16_t *lines, size_t lines_len, uint16_t *nodes, size_t nodes_len,
                             uint16_t *listings, size_t listings_len, uint16_t x1, uint16_t y1,
                             uint16_t x2, uint16_t y2, uint16_t left, uint16_t right);
uint64_t boundary_map_delete(uint16_t *lines, size_t lines_len, uint16_t *nodes, size_t nodes_len,
                             uint16_t *listings, size_t listings_len, uint32_t handle);
uint64_t boundary_map_locate(const uint16_t *lines, size_t lines_len, const uint16_t *nodes,
                             size_t nodes_len, const uint16_t *listings, size_t listings_len,
                             const uint16_t *points, size_t points_len, uint32_t *answers,
                             size_t answers_len);
uint64_t boundary_map_window(const uint16_t *lines, size_t lines_len, const uint16_t *nodes,
                             size_t nodes_len, const uint16_t *listings, size_t listings_len, uint16_t west,
                             uint16_t south, uint16_t east, uint16_t north, uint16_t *slots,
                             size_t slots_len);
uint32_t boundary_map_version(void);

#endif
