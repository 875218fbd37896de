/*
 * A first program: tile 0 sends one message to tile 1, which fetches it, and one
 * to another activity of tile 1, which has to be switched to first. Tile 0 is a
 * small gate with one page of memory; tile 1, where the vault and its logger run,
 * has four.
 *
 *   cc -Iinclude examples/first.c target/staticlib/libtcu.a -o first && ./first
 */
#include <stdio.h>
#include <string.h>
#include "tcu.h"

enum { TILES = 2, GATE_PAGES = 1, VAULT_PAGES = 4, VAULT = 5, LOGGER = 6, SLOT_SIZE = 8 };
enum { WORDS = TILES * TCU_WORDS_PER_TILE, RECORDS = TILES * TCU_SHARING_PER_TILE };
/* The vault's receive buffers, at addresses that the gate does not have. */
enum { TO_VAULT = 2 * TCU_PAGE, TO_LOGGER = 3 * TCU_PAGE };

static const uint8_t pages[TILES] = { GATE_PAGES, VAULT_PAGES };
static uint64_t words[WORDS];
static uint64_t sharing[RECORDS];
static uint8_t mem[(GATE_PAGES + VAULT_PAGES) * TCU_PAGE];

/* The vault's memory starts where the gate's ends. */
static uint8_t *const vault_mem = mem + GATE_PAGES * TCU_PAGE;

static uint32_t configure(uint64_t tile, uint64_t endpoint, const uint64_t *fields)
{
    uint64_t packed[TCU_WORDS_PER_ENDPOINT];
    uint64_t memory = (uint64_t)pages[tile] * TCU_PAGE;
    uint32_t answer = tcu_pack(memory, fields, TCU_FIELDS, packed, TCU_WORDS_PER_ENDPOINT);

    if (answer != TCU_NONE)
        return answer;
    return tcu_configure(TILES, pages, TILES, words, WORDS, sharing, RECORDS, mem, sizeof mem,
                         tile, endpoint, packed[0], packed[1], packed[2]);
}

/* An endpoint of tile 0 that sends to an endpoint of tile 1. */
static uint32_t sender(uint64_t endpoint, uint64_t target)
{
    uint64_t send[TCU_FIELDS] = { TCU_KIND_SEND };

    send[TCU_SEND_ACT] = VAULT;
    send[TCU_SEND_CUR_CRD] = send[TCU_SEND_MAX_CRD] = 2;
    send[TCU_SEND_MSG_SZ] = SLOT_SIZE;
    send[TCU_SEND_TGT_TILE] = 1;
    send[TCU_SEND_TGT_EP] = target;
    return configure(0, endpoint, send);
}

/* An endpoint of tile 1 that receives for an activity. */
static uint32_t receiver(uint64_t endpoint, uint64_t act, uint64_t buffer)
{
    uint64_t receive[TCU_FIELDS] = { TCU_KIND_RECEIVE };

    receive[TCU_RECEIVE_ACT] = act;
    receive[TCU_RECEIVE_RPL_EPS] = TCU_NO_ENDPOINT;
    receive[TCU_RECEIVE_SLOTS] = 1;
    receive[TCU_RECEIVE_SLOT_SIZE] = SLOT_SIZE;
    receive[TCU_RECEIVE_BUFFER] = buffer;
    return configure(1, endpoint, receive);
}

static uint32_t command(uint64_t tile, uint64_t opcode, uint64_t endpoint,
                        uint64_t arg0, uint64_t size, uint64_t *arg1)
{
    return tcu_command(TILES, pages, TILES, words, WORDS, sharing, RECORDS, mem, sizeof mem,
                       tile, opcode, endpoint, arg0, 0, size, arg1);
}

/* Has a tile run another activity, and gives back what it ran. */
static uint64_t run(uint64_t tile, uint64_t cur_act)
{
    uint64_t before = 0;
    uint32_t answer = tcu_privileged(TILES, pages, TILES, words, WORDS, sharing, RECORDS,
                                     mem, sizeof mem, tile, TCU_PRIV_XCHG_ACT, cur_act, &before);

    printf("tile %u runs activity %u: %u\n", (unsigned)tile, (unsigned)(cur_act & 0xFFFF), answer);
    return before;
}

/* Tile 0 sends what stands at its address 0. */
static void send(uint64_t endpoint, const char *text)
{
    uint64_t label = 77;

    strcpy((char *)mem, text);
    printf("send: %u\n",
           command(0, TCU_OP_SEND, endpoint, TCU_NO_ENDPOINT, strlen(text) + 1, &label));
}

static void fetch(uint64_t endpoint, uint64_t buffer)
{
    uint64_t offset = 0;

    printf("fetch: %u\n", command(1, TCU_OP_FETCH, endpoint, 0, 0, &offset));
    if (offset != TCU_NO_MESSAGE)
        printf("offset %u: %s\n", (unsigned)offset,
               (char *)vault_mem + buffer + offset + TCU_HEADER);
}

int main(void)
{
    uint64_t waiting[TCU_WAITING], vault;

    run(0, VAULT);
    run(1, VAULT);
    printf("configure senders: %u %u\n", sender(4, 7), sender(5, 8));
    printf("configure receivers: %u %u\n", receiver(7, VAULT, TO_VAULT),
           receiver(8, LOGGER, TO_LOGGER));

    send(4, "hello, tile 1");
    fetch(7, TO_VAULT);

    send(5, "hello, logger");
    printf("waiting: %u\n", tcu_waiting(TILES, pages, TILES, words, WORDS, sharing, RECORDS,
                                        mem, sizeof mem, 1, waiting, TCU_WAITING));
    printf("%u for endpoint %u, activity %u\n", (unsigned)waiting[TCU_WAITING_COUNT],
           (unsigned)waiting[TCU_WAITING_ENDPOINT], (unsigned)waiting[TCU_WAITING_ACT]);
    vault = run(1, waiting[TCU_WAITING_ACT] | UINT64_C(1) << 16); /* one unread message */
    printf("respond: %u\n", tcu_respond(TILES, pages, TILES, words, WORDS, sharing, RECORDS,
                                        mem, sizeof mem, 1));
    fetch(8, TO_LOGGER);
    run(1, vault);
    return 0;
}
