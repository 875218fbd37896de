/*
 * The TCU reference machine: a model of the trusted communication units of a
 * tiled chip, as a library that keeps nothing between calls. The host lends
 * everything for the length of one call.
 *
 * Link with libtcu.a. Example: examples/first.c.
 *
 *
 * What the host lends
 *
 *   tiles    the number of tiles, 1 to 8, numbered from 0
 *   pages    the page counts: for each tile how many pages of 4096 bytes its
 *            memory has, 1 to 16, in one byte. Tiles may have different counts.
 *            Length exactly tiles. It is only read.
 *   words    the endpoint tables: 192 words per tile, three for each of its 64
 *            endpoints, in order. Length exactly 192 * tiles.
 *   sharing  the sharing records: 67 words per tile, which say what activity the
 *            tile runs and what waits for the others. Length exactly 67 * tiles.
 *   mem      the memories, each right behind that of the tile before it: address
 *            a of tile t is mem[4096 * (pages[0] + .. + pages[t - 1]) + a].
 *            Length exactly 4096 * (the sum of all page counts), in bytes.
 *
 * An address counts from the start of its tile's memory. A range in a tile, and
 * the slots of a receive endpoint there, must lie within that tile's own memory:
 * they never reach into the next one.
 *
 * A table of zero words is good: every endpoint is INVALID. Records of zero words
 * are good: every tile runs activity 0 and nothing waits. Every function may be
 * given any numbers and any lengths; what is not allowed is refused with an
 * answer. Pointers are never null, not even for a length of 0; each is valid for
 * the whole length that is passed with it, and what is lent does not overlap.
 *
 *
 * The sharing record of a tile
 *
 *   word 0        CUR_ACT: the id of the activity that runs in bits 0..15, the
 *                 number of its unread messages in 16..31; below 2^32
 *   word 1        the place of the oldest request, 0 to 63
 *   word 2        how many requests wait, at most 64
 *   words 3..66   the 64 places for requests
 *
 * A message for an activity that the tile does not run at the moment leaves a
 * request there. Requests wait in order: request k, 0 for the oldest, stands at
 * word 3 + (oldest + k) mod 64. A request has 2 in bits 0..1, the receive
 * endpoint, below 64, in 2..17, its activity in 48..63, and no other bit set.
 * Places where none waits may hold anything.
 *
 * The count goes up by one with each message delivered to the activity that
 * runs, and down by one where a FETCH hands out a message, or a REPLY or ACK_MSG
 * frees a slot that is still unread. It is counted modulo 65536, and a switch of
 * activities takes it along: the host keeps the word that XCHG_ACT hands back.
 *
 *
 * Answers
 *
 * Every function gives an answer, 0 for success (tcu_wiring: 1 or 0). A refusal,
 * that is every answer but 0, changes nothing that was lent. Answers from 100 are
 * about the host's own arguments and are tested first, in the order of their
 * numbers.
 */
#ifndef TCU_H
#define TCU_H

#include <stddef.h>
#include <stdint.h>

#ifdef __cplusplus
extern "C" {
#endif

/* Sizes. */
#define TCU_MAX_TILES 8
#define TCU_ENDPOINTS 64
#define TCU_WORDS_PER_ENDPOINT 3
#define TCU_WORDS_PER_TILE 192
#define TCU_PAGE 4096
/* The page counts that a tile can have. */
#define TCU_MIN_PAGES 1
#define TCU_MAX_PAGES 16
/* The same in bytes, for tcu_unpack and tcu_pack. */
#define TCU_MIN_MEMORY 4096
#define TCU_MAX_MEMORY 65536
/* The words of a sharing record, and the requests that can wait in it. */
#define TCU_SHARING_PER_TILE 67
#define TCU_QUEUE 64
/* The places of its words. */
#define TCU_SHARING_CUR_ACT 0
#define TCU_SHARING_OLDEST 1
#define TCU_SHARING_WAITING 2
#define TCU_SHARING_REQUESTS 3
/* The numbers in the list that tcu_waiting fills. */
#define TCU_WAITING 3
/* The bytes of a message's header; the payload follows it in the slot. */
#define TCU_HEADER 32
/* The numbers in a list of fields. */
#define TCU_FIELDS 11
/* In rpl_eps, crd_ep and SEND's arg0: no endpoint. */
#define TCU_NO_ENDPOINT 65535
/* In cur_crd: unlimited credits. */
#define TCU_UNLIMITED 63
/* In *arg1 after a FETCH that found nothing. */
#define TCU_NO_MESSAGE UINT64_MAX

enum tcu_answer {
    TCU_NONE = 0,                /* done */
    TCU_NO_MEP = 1,              /* no memory endpoint */
    TCU_NO_SEP = 2,              /* no send endpoint */
    TCU_NO_REP = 3,              /* no receive endpoint */
    TCU_FOREIGN_EP = 4,          /* the endpoint belongs to another activity */
    TCU_SEND_REPLY_EP = 5,       /* SEND with a reply endpoint, or REPLY without */
    TCU_RECV_GONE = 6,           /* the target is no receive endpoint */
    TCU_RECV_NO_SPACE = 7,       /* the receive buffer is full, or the queue */
    TCU_REPLIES_DISABLED = 8,    /* the receive endpoint has no reply range */
    TCU_OUT_OF_BOUNDS = 9,       /* offset or size too large for the endpoint */
    TCU_NO_CREDITS = 10,         /* no credit left to send with */
    TCU_NO_PERM = 11,            /* the memory endpoint does not permit this */
    TCU_INV_MSG_OFF = 12,        /* arg0 names no slot */
    TCU_ABORT = 14,              /* a range that lies outside its tile's memory */
    TCU_UNKNOWN_CMD = 15,        /* no such opcode */
    TCU_RECV_OUT_OF_BOUNDS = 16, /* the message is too large for a slot */
    TCU_RECV_INV_RPL_EPS = 17,   /* the reply range ends above 64 */
    TCU_SEND_INV_CRD_EP = 18,    /* the reply endpoint's crd_ep is invalid */
    TCU_SEND_INV_MSG_SZ = 19,    /* msg_sz is above 11 */
    TCU_TIMEOUT_NOC = 21,        /* the target chip or tile does not exist */
    TCU_PAGE_BOUNDARY = 22,      /* the local range crosses a page boundary */
    TCU_MSG_UNALIGNED = 23,      /* a message's address is no multiple of 16 */
    TCU_BAD_MACHINE = 100,       /* a size, an endpoint or a record is wrong */
    TCU_NO_SUCH_TILE = 101,      /* no such tile */
    TCU_BAD_EP = 102,            /* endpoint number of 64 or more */
    TCU_BAD_CONFIG = 103         /* words or fields that are not acceptable */
};

enum tcu_opcode {
    TCU_OP_IDLE = 0,
    TCU_OP_SEND = 1,
    TCU_OP_REPLY = 2,
    TCU_OP_READ = 3,
    TCU_OP_WRITE = 4,
    TCU_OP_FETCH = 5,
    TCU_OP_ACK_MSG = 6
};

/* Of tcu_privileged. */
enum tcu_privileged_opcode {
    TCU_PRIV_IDLE = 0,
    TCU_PRIV_XCHG_ACT = 4
};

/* The places of the numbers in the list of tcu_waiting. */
enum tcu_waiting_place {
    TCU_WAITING_COUNT = 0,    /* how many requests wait */
    TCU_WAITING_ENDPOINT = 1, /* the oldest: the endpoint that got the message */
    TCU_WAITING_ACT = 2       /* the oldest: the activity it is for */
};

/* The kinds of endpoints: the first number of a list of fields. */
enum tcu_kind {
    TCU_KIND_INVALID = 0,
    TCU_KIND_SEND = 1,
    TCU_KIND_RECEIVE = 2,
    TCU_KIND_MEMORY = 3
};

/*
 * The places of the fields in a list. A place that the kind does not use is
 * zero. The bits of each field stand beside it.
 */
enum tcu_field {
    TCU_KIND = 0,

    TCU_SEND_ACT = 1,      /* 16: the activity that may use it */
    TCU_SEND_CUR_CRD = 2,  /*  6: credits now; 63 is unlimited */
    TCU_SEND_MAX_CRD = 3,  /*  6: credits at first; a reply adds none beyond them */
    TCU_SEND_MSG_SZ = 4,   /*  6: largest message with header, as a power of 2 */
    TCU_SEND_CRD_EP = 5,   /* 16: reply endpoints: the sender that gets a credit */
    TCU_SEND_REPLY = 6,    /*  1: whether it is a reply endpoint */
    TCU_SEND_TGT_EP = 7,   /* 16: the receive endpoint it aims at */
    TCU_SEND_TGT_TILE = 8, /*  8: the tile it aims at */
    TCU_SEND_TGT_CHIP = 9, /*  6: the chip it aims at; only chip 0 exists */
    TCU_SEND_LABEL = 10,   /* 64: put into the header of every message */

    TCU_RECEIVE_ACT = 1,       /* 16: the activity that may use it */
    TCU_RECEIVE_RPL_EPS = 2,   /* 16: first endpoint of the reply range */
    TCU_RECEIVE_SLOTS = 3,     /*  6: number of slots, as a power of 2, at most 5 */
    TCU_RECEIVE_SLOT_SIZE = 4, /*  6: bytes in a slot, as a power of 2, 5 to 11 */
    TCU_RECEIVE_WPOS = 5,      /*  6: where the search for a free slot starts */
    TCU_RECEIVE_RPOS = 6,      /*  6: where the search for a message starts */
    TCU_RECEIVE_BUFFER = 7,    /* 64: address of the slots, a multiple of 8 */
    TCU_RECEIVE_OCCUPIED = 8,  /* 32: a bit for each slot in use */
    TCU_RECEIVE_UNREAD = 9,    /* 32: a bit for each message not yet fetched */

    TCU_MEMORY_ACT = 1,  /* 16: the activity that may use it */
    TCU_MEMORY_RW = 2,   /*  2: 1 for read plus 2 for write */
    TCU_MEMORY_TILE = 3, /*  8: the tile of the region */
    TCU_MEMORY_CHIP = 4, /*  6: the chip of the region; only chip 0 exists */
    TCU_MEMORY_ADDR = 5, /* 64: address of the region in that tile */
    TCU_MEMORY_SIZE = 6  /* 64: bytes of the region */
};

/*
 * Carries out one command of a tile, with its delivery.
 *
 *   tile       the acting tile
 *   opcode     a tcu_opcode
 *   endpoint   the endpoint of the acting tile that is used
 *   arg0       SEND: the own receive endpoint for the reply, or TCU_NO_ENDPOINT
 *              REPLY, ACK_MSG: the offset of the message, as FETCH gave it
 *   data_addr  the local address of the data
 *   data_size  its size in bytes, without a header
 *   arg1       READ, WRITE: the offset in the region
 *              SEND: the label that the reply will carry
 *              FETCH: set to the offset of the message in the receive buffer, or
 *              to TCU_NO_MESSAGE
 *
 * Only a FETCH that answers 0 changes *arg1.
 *
 *   IDLE     does nothing.
 *   SEND     sends a message to the endpoint that a send endpoint aims at.
 *   REPLY    answers a message held in a slot of a receive endpoint, and frees it.
 *            The sender that the reply endpoint names in crd_ep gets one credit if
 *            it has fewer than max_crd and at most 61, so a reply never makes its
 *            credits unlimited. Otherwise it gets none; REPLY still answers 0.
 *   READ     copies from a memory endpoint's region to local memory.
 *   WRITE    copies from local memory to a memory endpoint's region.
 *   FETCH    hands out the next unread message of a receive endpoint.
 *   ACK_MSG  frees a slot without an answer.
 *
 * Only endpoints of the activity that the acting tile runs can be used. SEND and
 * REPLY count the message, or queue a request for it, at the tile that receives
 * it; where 64 requests wait there, a message for an activity that it does not
 * run is refused with 7.
 */
uint32_t tcu_command(uint64_t tiles, const uint8_t *pages, size_t pages_len,
                     uint64_t *words, size_t words_len,
                     uint64_t *sharing, size_t sharing_len,
                     uint8_t *mem, size_t mem_len,
                     uint64_t tile, uint64_t opcode, uint64_t endpoint,
                     uint64_t arg0, uint64_t data_addr, uint64_t data_size,
                     uint64_t *arg1);

/*
 * Writes an endpoint. The three words come from tcu_pack, with the memory of this
 * tile: a receive endpoint that fits a larger tile may be refused here.
 * Answers: 0, 100, 101, 102, 103.
 */
uint32_t tcu_configure(uint64_t tiles, const uint8_t *pages, size_t pages_len,
                       uint64_t *words, size_t words_len,
                       const uint64_t *sharing, size_t sharing_len,
                       const uint8_t *mem, size_t mem_len,
                       uint64_t tile, uint64_t endpoint,
                       uint64_t first, uint64_t second, uint64_t third);

/*
 * Makes an endpoint INVALID.
 * Answers: 0, 100, 101, 102.
 */
uint32_t tcu_invalidate(uint64_t tiles, const uint8_t *pages, size_t pages_len,
                        uint64_t *words, size_t words_len,
                        const uint64_t *sharing, size_t sharing_len,
                        const uint8_t *mem, size_t mem_len,
                        uint64_t tile, uint64_t endpoint);

/*
 * Carries out one privileged command of a tile.
 *
 *   tile    the acting tile
 *   opcode  a tcu_privileged_opcode
 *   arg0    XCHG_ACT: the new CUR_ACT in its low 32 bits, the id in bits 0..15 and
 *           the number of unread messages in 16..31
 *   arg1    XCHG_ACT: set to CUR_ACT as it was
 *
 * Only an XCHG_ACT that answers 0 changes *arg1.
 *
 *   IDLE      does nothing.
 *   XCHG_ACT  has the tile run another activity.
 *
 * Answers: 0, 15, 100, 101.
 */
uint32_t tcu_privileged(uint64_t tiles, const uint8_t *pages, size_t pages_len,
                        const uint64_t *words, size_t words_len,
                        uint64_t *sharing, size_t sharing_len,
                        const uint8_t *mem, size_t mem_len,
                        uint64_t tile, uint64_t opcode, uint64_t arg0,
                        uint64_t *arg1);

/*
 * The tile's response to its oldest request, which no longer waits then. Where
 * none waits, nothing changes and the answer is 0.
 * Answers: 0, 100, 101.
 */
uint32_t tcu_respond(uint64_t tiles, const uint8_t *pages, size_t pages_len,
                     const uint64_t *words, size_t words_len,
                     uint64_t *sharing, size_t sharing_len,
                     const uint8_t *mem, size_t mem_len,
                     uint64_t tile);

/*
 * Tells what waits at a tile: how many requests, and the endpoint and the
 * activity of the oldest, both 0 where none waits. waiting_len is exactly
 * TCU_WAITING; this is tested first.
 * Answers: 0, 100, 101.
 */
uint32_t tcu_waiting(uint64_t tiles, const uint8_t *pages, size_t pages_len,
                     const uint64_t *words, size_t words_len,
                     const uint64_t *sharing, size_t sharing_len,
                     const uint8_t *mem, size_t mem_len,
                     uint64_t tile,
                     uint64_t *waiting, size_t waiting_len);

/*
 * Tells whether the wiring is sound: no message and no reply endpoint yet; each
 * reply range within the table, over INVALID endpoints, apart from the others of
 * its tile; each sender with all its credits, at most 62, and aimed at an
 * existing receive endpoint; and no receive endpoint with more credits aimed at
 * it than it has slots.
 * Answers: 1 for yes, 0 for no, or 100.
 */
uint32_t tcu_wiring(uint64_t tiles, const uint8_t *pages, size_t pages_len,
                    const uint64_t *words, size_t words_len,
                    const uint64_t *sharing, size_t sharing_len,
                    const uint8_t *mem, size_t mem_len);

/*
 * Turns the three words of an endpoint into its fields. memory is the bytes of
 * memory of the tile that has the endpoint, TCU_PAGE * its page count: a multiple
 * of 4096, from 4096 to 65536. fields_len is exactly TCU_FIELDS.
 * Answers: 0; 100 for a memory or a length that is not allowed; 103 for words
 * that are not acceptable.
 */
uint32_t tcu_unpack(uint64_t memory,
                    uint64_t first, uint64_t second, uint64_t third,
                    uint64_t *fields, size_t fields_len);

/*
 * Turns fields into the three words of an endpoint. memory is that of the tile
 * that will have it, as for tcu_unpack. fields_len is exactly TCU_FIELDS,
 * words_len exactly TCU_WORDS_PER_ENDPOINT.
 * Answers: 0; 100 for a memory or a length that is not allowed; 103 for an
 * unknown kind, a field too large for its bits, an unused number that is not
 * zero, or a receive endpoint that breaks one of these rules: at most 2^5 slots
 * of 2^5 to 2^11 bytes; wpos and rpos at most the number of slots; no mask bit
 * without a slot; every unread slot occupied; the buffer a multiple of 8, and
 * all slots within the memory.
 */
uint32_t tcu_pack(uint64_t memory,
                  const uint64_t *fields, size_t fields_len,
                  uint64_t *words, size_t words_len);

#ifdef __cplusplus
}
#endif

#endif /* TCU_H */
