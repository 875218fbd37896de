/*
 * A file of its own: host/stack reads its object file beside the library, and so
 * knows what a call needs with the arguments that go on the stack.
 */
#include "calls.h"
#include "tcu.h"

uint32_t call_tcu_command(const void *arguments)
{
    const struct arguments *a = arguments;
    const uint64_t *n = a->numbers;

    return tcu_command(a->tiles, a->pages, a->pages_len, a->words, a->words_len,
                       a->sharing, a->sharing_len, a->mem, a->mem_len,
                       a->tile, n[0], a->endpoint, n[1], n[2], n[3], a->arg1);
}

uint32_t call_tcu_configure(const void *arguments)
{
    const struct arguments *a = arguments;
    const uint64_t *n = a->numbers;

    return tcu_configure(a->tiles, a->pages, a->pages_len, a->words, a->words_len,
                         a->sharing, a->sharing_len, a->mem, a->mem_len,
                         a->tile, a->endpoint, n[0], n[1], n[2]);
}

uint32_t call_tcu_invalidate(const void *arguments)
{
    const struct arguments *a = arguments;

    return tcu_invalidate(a->tiles, a->pages, a->pages_len, a->words, a->words_len,
                          a->sharing, a->sharing_len, a->mem, a->mem_len, a->tile, a->endpoint);
}

uint32_t call_tcu_wiring(const void *arguments)
{
    const struct arguments *a = arguments;

    return tcu_wiring(a->tiles, a->pages, a->pages_len, a->words, a->words_len,
                      a->sharing, a->sharing_len, a->mem, a->mem_len);
}

uint32_t call_tcu_unpack(const void *arguments)
{
    const struct arguments *a = arguments;
    const uint64_t *n = a->numbers;

    return tcu_unpack(n[3], n[0], n[1], n[2], a->list, a->list_len);
}

uint32_t call_tcu_pack(const void *arguments)
{
    const struct arguments *a = arguments;
    const uint64_t *n = a->numbers;

    return tcu_pack(n[3], a->list, a->list_len, a->packed, a->packed_len);
}

uint32_t call_tcu_privileged(const void *arguments)
{
    const struct arguments *a = arguments;
    const uint64_t *n = a->numbers;

    return tcu_privileged(a->tiles, a->pages, a->pages_len, a->words, a->words_len,
                          a->sharing, a->sharing_len, a->mem, a->mem_len,
                          a->tile, n[0], n[1], a->arg1);
}

uint32_t call_tcu_respond(const void *arguments)
{
    const struct arguments *a = arguments;

    return tcu_respond(a->tiles, a->pages, a->pages_len, a->words, a->words_len,
                       a->sharing, a->sharing_len, a->mem, a->mem_len, a->tile);
}

uint32_t call_tcu_waiting(const void *arguments)
{
    const struct arguments *a = arguments;

    return tcu_waiting(a->tiles, a->pages, a->pages_len, a->words, a->words_len,
                       a->sharing, a->sharing_len, a->mem, a->mem_len,
                       a->tile, a->list, a->list_len);
}
