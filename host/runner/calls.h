/*
 * The calls of the library, one function each, all of the same shape: what is
 * passed comes from one structure, so that the calls can be made on another stack.
 */
#ifndef CALLS_H
#define CALLS_H

#include <stddef.h>
#include <stdint.h>

/* What is passed to any of the functions; each takes what it needs. */
struct arguments {
    uint64_t tiles;
    const uint8_t *pages;
    size_t pages_len;
    uint64_t *words;
    size_t words_len;
    uint64_t *sharing;
    size_t sharing_len;
    uint8_t *mem;
    size_t mem_len;
    uint64_t tile, endpoint;
    uint64_t numbers[4]; /* the last one is also the memory of tcu_unpack and tcu_pack */
    uint64_t *arg1;
    uint64_t *list; /* the fields, or the list of tcu_waiting */
    size_t list_len;
    uint64_t *packed;
    size_t packed_len;
};

uint32_t call_tcu_command(const void *arguments);
uint32_t call_tcu_configure(const void *arguments);
uint32_t call_tcu_invalidate(const void *arguments);
uint32_t call_tcu_wiring(const void *arguments);
uint32_t call_tcu_unpack(const void *arguments);
uint32_t call_tcu_pack(const void *arguments);
uint32_t call_tcu_privileged(const void *arguments);
uint32_t call_tcu_respond(const void *arguments);
uint32_t call_tcu_waiting(const void *arguments);

#endif
