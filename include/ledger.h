/*
 * The ledger library for hosts in C (C99) and C++ (C++11): the calls that target/staticlib/libledger.a exports (`tools/archive`).
 *
 * Every call answers for any bytes, any length and any number. An answer begins with the refusal's number, 0 where there is none, and its
 * place. Only ledger_turn and ledger_depth never refuse, and answer a number alone.
 *
 * Look at `refusal` first. Beside a refusal stand zeros, but for what the host keeps: the pool, and the length that ledger_adopt and ledger_append
 * answer, are as they came, and so is the place that a walk has reached. A refusal leaves every lent buffer as it came, and bytes past what a call
 * writes stay.
 *
 * The place is the failing block, counted from 1, for 3 to 10 in a delivered chain (ledger_check, ledger_choose, ledger_adopt) and for 17 in
 * the held one. Every other refusal has place 0, one of a single block too. The numbers that stand at a call are its refusals, in the order in
 * which it looks for them: the first is answered.
 *
 * `clock` is the slot that it is now; the comments call it now.
 *
 * A slice is a pointer and a length in bytes. The bytes are readable, and writable where it is not const. With length 0 the pointer may be
 * anything, NULL too: nothing is read or written there. A buffer that a call writes shares no byte with the call's other slices. No call keeps a
 * pointer, allocates, or has a state: calls from several threads need no lock.
 *
 * The held chain is the first `length` bytes of the buffer `held`, which has room for `held_room` bytes. The chain of no blocks is length 0 of
 * the same buffer. A buffer of LEDGER_CHAIN_BYTES never is too short.
 *
 * Bytes between the fields of a struct (padding) have no value: compare structs field by field, and do not send them as they lie in memory.
 *
 * What the host must do, since the library can't check it. Each is told in full in docs/HOSTS.md.
 * - Sign the slot text and the block text, and nothing else under the same key. Sign at most one block for each slot, also across a restart: store
 *   the signed block and its slot before sending it.
 * - Use one signature scheme and one rule of verification on all controllers. Give a block LEDGER_GOOD_VERDICT exactly if both signatures verify.
 * - Keep the chain, its length and the pool as the last call left them, and hand them back so. Lend full-sized buffers.
 * - Count slots 1, 2, 3 and so on to 256, the same on every controller. In each slot take the deliveries first, one after another, and then issue if
 *   it is the controller's turn.
 * - Send an issued chain, the whole of it, so that every controller is given it in the next slot.
 * - Verify a stored chain's signatures again at boot: no link covers the last block, so a call need not see damage in it.
 * - In a bootloader: hand ledger_check_manifest the release that a report has settled, and a key that is built in; start the image as it was checked.
 *
 * What to do at 17 and 18. A call meets them again with the same arguments, for ever. At 17 put the length to 0 and adopt the next whole chain that
 * is delivered. At 18 empty the pool, all zeros, and offer its orders again. (If the clock was wrong, set it right first.) A controller that met one
 * of them, or missed a slot, counts among the t faulty to the end of the run, whatever it adopts: its report is not to be used. A way to join again
 * within a run is to come.
 *
 * The target is x86-64-v2 with the System V calling convention. The archive uses SSE, up to SSE4.2, and the red zone, the 128 bytes below the stack
 * pointer: where interrupts run on the stack of what they interrupt, as in a kernel, give them a stack of their own or keep them off during a call.
 */
#ifndef LEDGER_H
#define LEDGER_H

#include <stdbool.h>
#include <stddef.h>
#include <stdint.h>

#ifdef __cplusplus
extern "C" {
#endif

/* The interface's version: it changes with every declaration of this header that changes. */
#define LEDGER_VERSION 7

/* Limits. */
#define LEDGER_DISPLAYS 64           /* displays are 0 to 63 */
#define LEDGER_CONTROLLERS 31        /* the most controllers of a table */
#define LEDGER_SLOTS 256             /* slots are 1 to 256: no chain has more blocks, and as many verdict bytes are always enough */
#define LEDGER_ORDERS 8              /* the most orders of a block */
#define LEDGER_POOL_ROOM 64          /* the most entries of a pool */
#define LEDGER_DEPOTS 4              /* depots are 0 to 3 */
#define LEDGER_DEPOT_ROOM 16         /* the most entries of one depot: for ledger_add_order of all, for every other call of those that count */
#define LEDGER_POOL_SLOTS 64         /* u is 1 to 64, and new tables have 64. It has no effect */
#define LEDGER_NUMBER_BYTES 5        /* the most bytes of a number */
#define LEDGER_LARGEST UINT64_C(34359738367) /* the largest number, and the largest release: 35 bits */
#define LEDGER_KEY_BYTES 32
#define LEDGER_DIGEST_BYTES 32       /* the bytes of a digest */
#define LEDGER_LINK_BYTES 32
#define LEDGER_SIGNATURE_BYTES 64
#define LEDGER_SLOT_LETTERS "slot"   /* a slot text is these letters, without a zero behind them, and the slot as a number */
#define LEDGER_SLOT_LETTERS_BYTES 4
#define LEDGER_SLOT_TEXT_BYTES 6     /* the most bytes of a slot text */
#define LEDGER_DRAFT_BYTES 187       /* the most bytes of a draft: a block without its last 64 */
#define LEDGER_BLOCK_LETTERS "block" /* a block text is these letters, without a zero behind them, and the draft */
#define LEDGER_BLOCK_LETTERS_BYTES 5
#define LEDGER_BLOCK_TEXT_BYTES 192  /* the most bytes of a block text */
#define LEDGER_GENESIS_BYTES 1315    /* the most bytes of a genesis */
#define LEDGER_BLOCK_LEAST_BYTES 162 /* the fewest bytes of a block */
#define LEDGER_BLOCK_BYTES 251       /* and the most */
#define LEDGER_CHAIN_BYTES 64256     /* the most bytes of a chain */
#define LEDGER_MESSAGE_BYTES 65536   /* the most bytes that are digested */
#define LEDGER_IMAGE_BYTES 65536     /* the most bytes of an image that a manifest is for */
#define LEDGER_MANIFEST_KEY_BYTES 56 /* the bytes of the key that manifests are signed under */
#define LEDGER_MANIFEST_SIGNATURE_BYTES 1292 /* and of a manifest's signature */
#define LEDGER_MANIFEST_BYTES 1329   /* the most bytes of a manifest: a number, a digest and a signature */
#define LEDGER_GOOD_VERDICT 3        /* both signatures verify under the key whose turn the slot is */

/* The most that a call takes of the stack, in bytes, on every path: its frames, its arguments by value and its answer. Measured by host/c/stack.c and
   rounded up to the next 256; a test holds the archive to it. No call recurses, and none takes more for longer input. */
#define LEDGER_STACK_READ_NUMBER 256
#define LEDGER_STACK_WRITE_NUMBER 256
#define LEDGER_STACK_DIGEST 512
#define LEDGER_STACK_READ_GENESIS 2816
#define LEDGER_STACK_FIND_KEY 2304
#define LEDGER_STACK_TURN 768
#define LEDGER_STACK_DEPTH 1280
#define LEDGER_STACK_READ_BLOCK 2560
#define LEDGER_STACK_WRITE_BLOCK 1792
#define LEDGER_STACK_SLOT_TEXT 256
#define LEDGER_STACK_WALK_STEP 3072
#define LEDGER_STACK_CHECK 8960
#define LEDGER_STACK_CHOOSE 13824
#define LEDGER_STACK_ADOPT 13824
#define LEDGER_STACK_DROP_ENTRIES 25088
#define LEDGER_STACK_ADD_ORDER 28160
#define LEDGER_STACK_DRAFT 24064
#define LEDGER_STACK_BLOCK_TEXT 24064
#define LEDGER_STACK_APPEND 24576
#define LEDGER_STACK_REPORT 13824
#define LEDGER_STACK_CHECK_MANIFEST 2048

/* Refusal numbers. */
enum ledger_refusal {
    LEDGER_NO_REFUSAL = 0,         /* the call has done what it says */
    LEDGER_BAD_GENESIS = 1,        /* genesis bytes break a rule */
    LEDGER_BAD_CLOCK = 2,          /* now is not 1 to 256 */
    LEDGER_CUT = 3,                /* bytes end inside a block or number, or inside a manifest's digest */
    LEDGER_BAD_NUMBER = 4,         /* a number is not shortest, or too large */
    LEDGER_OUT_OF_RANGE = 5,       /* order count, display or slot out of its range; a release above the largest in an offer or a block to be
                                      written; a depot above 3 in an offer */
    LEDGER_BAD_STAMP = 6,          /* a stamp not above the one before; draft or append: held chain ends at now */
    LEDGER_LATE_STAMP = 7,         /* a delivered stamp not below now */
    LEDGER_BAD_VERDICT = 8,        /* verdict not 3, or missing */
    LEDGER_BAD_LINK = 9,           /* link wrong */
    LEDGER_BAD_ORDER = 10,         /* an order not valid at its point */
    LEDGER_NOT_LONGER = 11,        /* not more blocks than held */
    LEDGER_WRONG_CONTROLLER = 12,  /* controller not 1 to n, or not its turn */
    LEDGER_POOL_FULL = 13,         /* the pool has 64 entries. It can't occur: each of the four depots has room for 16 of them */
    LEDGER_BAD_OFFER = 14,         /* new order not valid where it would stand */
    LEDGER_SHORT_BUFFER = 15,      /* lent output too short */
    LEDGER_TOO_LONG = 16,          /* delivered chain over 64,256 bytes, or a slice to digest, a manifest's image too, over 65,536 */
    LEDGER_BAD_HELD = 17,          /* held chain bad: longer than its buffer or than 64,256 bytes (place 0), or a block fails 3, 4, 5, 6, 9 or 10,
                                      or its stamp is above now (the block's place). It needs no verdicts, and its last stamp may equal now */
    LEDGER_BAD_POOL = 18,          /* pool bad: count above 64, or within the count an entry with a display above 63, a release above the largest,
                                      slot 0, a slot above now or a depot above 3, or more than 16 counting entries of one depot; of
                                      ledger_add_order more than 16, counting or not */
    LEDGER_DEPOT_FULL = 20,        /* the depot has 16 entries, counting or not */
    LEDGER_BAD_FORM = 23,          /* a manifest's signature or its key has a wrong length or a wrong type code */
    LEDGER_BAD_SIGNATURE = 24,     /* a manifest's signature does not verify under the key */
    LEDGER_WRONG_IMAGE = 25,       /* the image is not the one that the manifest is for: its digest is another */
    LEDGER_WRONG_RELEASE = 26      /* the manifest's release is not the settled one */
};

/* A slot, or a block's stamp. Apart from a number of blocks, so that neither can be taken for the other. */
typedef struct {
    uint32_t number;
} ledger_slot;

/* A number of blocks. */
typedef struct {
    uint32_t number;
} ledger_block_count;

/* An order: the release that a display is to have before, and the one that it is to have then. Releases are at most LEDGER_LARGEST; one above it
   that a host hands in is refused, never cut. */
typedef struct {
    uint32_t display;
    uint64_t expected;
    uint64_t new_release;
} ledger_order;

/* The first `count` orders of the list are meant. Read from bytes, the others are zeros. */
typedef struct {
    uint32_t count;
    ledger_order list[LEDGER_ORDERS];
} ledger_orders;

/* A block without its last 64 bytes. */
typedef struct {
    uint8_t link[LEDGER_LINK_BYTES];
    ledger_orders orders;
    ledger_slot slot;
    uint8_t slot_signature[LEDGER_SIGNATURE_BYTES];
} ledger_front;

typedef struct {
    ledger_front front;
    uint8_t block_signature[LEDGER_SIGNATURE_BYTES];
} ledger_block;

/* An order, the slot in which it was pooled, and the depot that it came from, 0 to 3. */
typedef struct {
    ledger_order order;
    ledger_slot slot;
    uint32_t depot;
} ledger_entry;

/* The first `count` entries are meant. A pool of no entries is all zeros. An entry counts while its display's settled release, settled at now over
   the held chain, is not above the release that it expects. */
typedef struct {
    uint32_t count;
    ledger_entry entries[LEDGER_POOL_ROOM];
} ledger_pool;

typedef struct {
    uint8_t bytes[LEDGER_SIGNATURE_BYTES];
} ledger_signature;

/* A genesis table: n controllers, of whom t may be faulty (n is at least 3t + 1), and u, which is 1 to 64 and has no effect. */
typedef struct {
    uint32_t n;
    uint32_t t;
    uint32_t u;
    uint64_t releases[LEDGER_DISPLAYS]; /* the starting releases */
    size_t keys_at;                     /* where the first key stands in the genesis bytes */
} ledger_genesis;

typedef struct {
    uint32_t refusal;
    ledger_block_count place;
    uint64_t value;
    size_t next; /* the place after the number */
} ledger_number_answer;

typedef struct {
    uint32_t refusal;
    ledger_block_count place;
    size_t next; /* the place after what was written: its length, if it was written from place 0 on */
} ledger_write_answer;

typedef struct {
    uint32_t refusal;
    ledger_block_count place;
    uint8_t digest[LEDGER_DIGEST_BYTES];
} ledger_digest_answer;

typedef struct {
    uint32_t refusal;
    ledger_block_count place;
    ledger_genesis table;
} ledger_genesis_answer;

typedef struct {
    uint32_t refusal;
    ledger_block_count place;
    size_t at; /* where the key's 32 bytes begin in the genesis bytes */
} ledger_key_answer;

typedef struct {
    uint32_t refusal;
    ledger_block_count place;
    size_t next; /* the place after the block */
    ledger_block block;
} ledger_block_answer;

typedef struct {
    uint32_t refusal;
    ledger_block_count place;
    bool end;    /* no block is left: the block is zeros */
    size_t next; /* where the walk stands now; after the end and after a refusal where it stood */
    ledger_block block;
} ledger_step_answer;

typedef struct {
    uint32_t refusal;
    ledger_block_count place;
    ledger_block_count count;
    uint64_t releases[LEDGER_DISPLAYS]; /* after the last block */
} ledger_check_answer;

typedef struct {
    uint32_t refusal;
    ledger_block_count place;
    bool delivered; /* the delivered chain is chosen; else the held one */
} ledger_choose_answer;

typedef struct {
    uint32_t refusal;
    ledger_block_count place;
    size_t length;            /* what to hold from then on: the held chain's new length, on a refusal the old one */
    ledger_block_count count; /* of the adopted chain; 0 on a refusal */
} ledger_adopt_answer;

typedef struct {
    uint32_t refusal;
    ledger_block_count place;
    ledger_pool pool; /* as it is then: on a refusal as it came */
} ledger_pool_answer;

typedef struct {
    uint32_t refusal;
    ledger_block_count place;
    size_t length; /* of what was written, 0 on a refusal; of append what to hold from then on: the new length, on a refusal the old one */
} ledger_issue_answer;

typedef struct {
    uint32_t refusal;
    ledger_block_count place;
    ledger_block_count held;
    ledger_block_count settled;
    size_t settled_length;              /* of the settled blocks in bytes */
    uint64_t releases[LEDGER_DISPLAYS]; /* after the settled blocks */
} ledger_report_answer;

typedef struct {
    uint32_t refusal; /* 0: this image may be started */
    ledger_block_count place;
} ledger_manifest_answer;

/* Reads the number at a place: 3, 4. */
ledger_number_answer ledger_read_number(const uint8_t *bytes, size_t bytes_length, size_t at);

/* Writes a number at a place of a buffer: 4 if it is above LEDGER_LARGEST, 15. */
ledger_write_answer ledger_write_number(uint64_t value, size_t at, uint8_t *out, size_t out_length);

/* SHA-256: 16. */
ledger_digest_answer ledger_digest(const uint8_t *message, size_t message_length);

/* Reads a genesis: 1. */
ledger_genesis_answer ledger_read_genesis(const uint8_t *bytes, size_t bytes_length);

/* Where a controller's key stands in genesis bytes; controllers count from 1: 1, 12. Here 12 is an unknown controller, not 1 to n: turns do not
   matter. */
ledger_key_answer ledger_find_key(const uint8_t *bytes, size_t bytes_length, uint32_t controller);

/* Whose turn a slot is: a controller, or 0 where the table has none. No refusal: any slot has a turn, and slot 0 is answered as slot 1 is. */
uint32_t ledger_turn(ledger_genesis table, ledger_slot slot);

/* A block is settled when it lies more than so many slots back: if its slot + depth < now. 0 for a table that was not read, whose n is not 1 to 31 or
   is below 3t + 1; where it is 255 or more, nothing settles in a run. No refusal. */
uint64_t ledger_depth(ledger_genesis table);

/* Reads the block at a place: 3, 4, 5 in byte order. */
ledger_block_answer ledger_read_block(const uint8_t *bytes, size_t bytes_length, size_t at);

/* Writes a block at a place of a buffer: 5, 15. */
ledger_write_answer ledger_write_block(ledger_block block, size_t at, uint8_t *out, size_t out_length);

/* Writes the text of a slot that a host signs: 2, 15. */
ledger_write_answer ledger_slot_text(ledger_slot slot, uint8_t *out, size_t out_length);

/* A step of a walk over a chain: the block at a place, or the end, or a refusal as for one block: 3, 4, 5. */
ledger_step_answer ledger_walk_step(const uint8_t *chain, size_t chain_length, size_t at);

/* Checks a delivered chain at slot now, with a verdict byte for each block: 1, 2, 16, then its blocks one by one: 3, 4, 5 in byte order,
   6, 7, 8, 9, 10. A verdict is LEDGER_GOOD_VERDICT, or bad; a missing one is bad, and spare ones are ignored. */
ledger_check_answer ledger_check(const uint8_t *genesis, size_t genesis_length, ledger_slot clock, const uint8_t *chain,
                                 size_t chain_length, const uint8_t *verdicts, size_t verdicts_length);

/* Chooses between a held chain and a delivered one, and copies nothing: 1, 2, 17, 16, the delivered blocks as in ledger_check, 11. Here `held`
   is the held chain itself, all `held_length` bytes of it: 0 for the chain of no blocks. */
ledger_choose_answer ledger_choose(const uint8_t *genesis, size_t genesis_length, ledger_slot clock, const uint8_t *held,
                                   size_t held_length, const uint8_t *delivered, size_t delivered_length,
                                   const uint8_t *verdicts, size_t verdicts_length);

/* Puts a delivered chain in the place of the held one if it has more blocks: 1, 2, 17, 16, the delivered blocks as in ledger_check, 11, 15.
   The answer's length is what to hold from then on: the delivered chain's, or after a refusal the old one. */
ledger_adopt_answer ledger_adopt(const uint8_t *genesis, size_t genesis_length, ledger_slot clock, uint8_t *held,
                                 size_t held_room, size_t length, const uint8_t *delivered, size_t delivered_length,
                                 const uint8_t *verdicts, size_t verdicts_length);

/* Pooling is two calls, and the two are not one: what ledger_drop_entries has dropped stays dropped, also where ledger_add_order then refuses the
   order. Of both the answer's pool takes the old one's place. */

/* Drops the entries that no longer count, at each slot, or before an order is added: 1, 2, 17, 18. None of them could become valid again in a chain
   that goes on from the settled blocks. */
ledger_pool_answer ledger_drop_entries(const uint8_t *genesis, size_t genesis_length, ledger_slot clock, const uint8_t *held,
                                       size_t held_room, size_t length, ledger_pool pool);

/* Adds an order of a depot behind all entries, and drops none: 1, 2, 17, 18, 5, 14, 20, 13. Entries that no longer count stay in their places and
   take room. A depot that has LEDGER_DEPOT_ROOM entries is refused (20), whatever the others have. */
ledger_pool_answer ledger_add_order(const uint8_t *genesis, size_t genesis_length, ledger_slot clock, const uint8_t *held,
                                    size_t held_room, size_t length, ledger_pool pool, ledger_order order, uint32_t depot);

/* Issuing. Same arguments, same bytes: what was signed is what is appended. So ledger_draft or ledger_block_text, and ledger_append after it,
   must be given the same genesis, clock, held chain and `length`, pool, controller and slot signature, with no other call on the buffer or the
   pool in between. `length` is the held chain's before the block, in all three. The pool does not change: an entry leaves it only when it no
   longer counts, by ledger_drop_entries. */

/* Writes the next block without its last 64 bytes: 1, 2, 17, 18, 12, 6, 15. */
ledger_issue_answer ledger_draft(const uint8_t *genesis, size_t genesis_length, ledger_slot clock, const uint8_t *held,
                                 size_t held_room, size_t length, ledger_pool pool, uint32_t controller,
                                 ledger_signature slot_signature, uint8_t *out, size_t out_length);

/* Writes the text of the next block that a host signs, `block` and the draft, and refuses as the draft does. */
ledger_issue_answer ledger_block_text(const uint8_t *genesis, size_t genesis_length, ledger_slot clock, const uint8_t *held,
                                      size_t held_room, size_t length, ledger_pool pool, uint32_t controller,
                                      ledger_signature slot_signature, uint8_t *out, size_t out_length);

/* Writes the next block after the held chain: 1, 2, 17, 18, 12, 6, 15. The answer's length is what to hold from then on: with the new block, or
   after a refusal, when nothing was appended, the old one. */
ledger_issue_answer ledger_append(const uint8_t *genesis, size_t genesis_length, ledger_slot clock, uint8_t *held,
                                  size_t held_room, size_t length, ledger_pool pool, uint32_t controller,
                                  ledger_signature slot_signature, ledger_signature block_signature);

/* Reports on the held chain: 1, 2, 17. */
ledger_report_answer ledger_report(const uint8_t *genesis, size_t genesis_length, ledger_slot clock, const uint8_t *held,
                                   size_t held_room, size_t length);

/* Checks a boot manifest before a display starts a release: 16, 3 and 4 in byte order, 23, 24, 25, 26, all at place 0. A manifest is the release as a
   number, the SHA-256 of the image, and an LMS signature (RFC 8554) over the bytes before it, of the types LMS_SHA256_M32_H5 and LMOTS_SHA256_N32_W8.
   It is accepted exactly if the signature verifies under the key, the digest is the image's, and the release is `settled_release`: what a report
   says of the display (`releases`). Nothing is written. */
ledger_manifest_answer ledger_check_manifest(const uint8_t *image, size_t image_length, const uint8_t *manifest, size_t manifest_length,
                                             const uint8_t *key, size_t key_length, uint64_t settled_release);

/* The layout that the archive was compiled with: a host compiled with another does not compile. */
#if defined(__cplusplus) && __cplusplus >= 201103L
#define LEDGER_LAYOUT(name, fact) static_assert(fact, #name)
#elif defined(__STDC_VERSION__) && __STDC_VERSION__ >= 201112L
#define LEDGER_LAYOUT(name, fact) _Static_assert(fact, #name)
#else
#define LEDGER_LAYOUT(name, fact) typedef char name[(fact) ? 1 : -1]
#endif
#define LEDGER_SIZE(type, bytes) LEDGER_LAYOUT(type##_size, sizeof(type) == (bytes))
#define LEDGER_AT(type, field, place) LEDGER_LAYOUT(type##_##field##_at, offsetof(type, field) == (place))

LEDGER_LAYOUT(ledger_size_t_size, sizeof(size_t) == 8);
LEDGER_SIZE(ledger_slot, 4); LEDGER_AT(ledger_slot, number, 0);
LEDGER_SIZE(ledger_block_count, 4); LEDGER_AT(ledger_block_count, number, 0);
LEDGER_SIZE(ledger_order, 24); LEDGER_AT(ledger_order, display, 0); LEDGER_AT(ledger_order, expected, 8); LEDGER_AT(ledger_order, new_release, 16);
LEDGER_SIZE(ledger_orders, 200); LEDGER_AT(ledger_orders, count, 0); LEDGER_AT(ledger_orders, list, 8);
LEDGER_SIZE(ledger_front, 304); LEDGER_AT(ledger_front, link, 0); LEDGER_AT(ledger_front, orders, 32); LEDGER_AT(ledger_front, slot, 232);
LEDGER_AT(ledger_front, slot_signature, 236);
LEDGER_SIZE(ledger_block, 368); LEDGER_AT(ledger_block, front, 0); LEDGER_AT(ledger_block, block_signature, 304);
LEDGER_SIZE(ledger_entry, 32); LEDGER_AT(ledger_entry, order, 0); LEDGER_AT(ledger_entry, slot, 24); LEDGER_AT(ledger_entry, depot, 28);
LEDGER_SIZE(ledger_pool, 2056); LEDGER_AT(ledger_pool, count, 0); LEDGER_AT(ledger_pool, entries, 8);
LEDGER_SIZE(ledger_signature, 64); LEDGER_AT(ledger_signature, bytes, 0);
LEDGER_SIZE(ledger_genesis, 536); LEDGER_AT(ledger_genesis, n, 0); LEDGER_AT(ledger_genesis, t, 4); LEDGER_AT(ledger_genesis, u, 8);
LEDGER_AT(ledger_genesis, releases, 16); LEDGER_AT(ledger_genesis, keys_at, 528);
LEDGER_SIZE(ledger_number_answer, 24); LEDGER_AT(ledger_number_answer, refusal, 0); LEDGER_AT(ledger_number_answer, place, 4);
LEDGER_AT(ledger_number_answer, value, 8); LEDGER_AT(ledger_number_answer, next, 16);
LEDGER_SIZE(ledger_write_answer, 16); LEDGER_AT(ledger_write_answer, refusal, 0); LEDGER_AT(ledger_write_answer, place, 4);
LEDGER_AT(ledger_write_answer, next, 8);
LEDGER_SIZE(ledger_digest_answer, 40); LEDGER_AT(ledger_digest_answer, refusal, 0); LEDGER_AT(ledger_digest_answer, place, 4);
LEDGER_AT(ledger_digest_answer, digest, 8);
LEDGER_SIZE(ledger_genesis_answer, 544); LEDGER_AT(ledger_genesis_answer, refusal, 0); LEDGER_AT(ledger_genesis_answer, place, 4);
LEDGER_AT(ledger_genesis_answer, table, 8);
LEDGER_SIZE(ledger_key_answer, 16); LEDGER_AT(ledger_key_answer, refusal, 0); LEDGER_AT(ledger_key_answer, place, 4);
LEDGER_AT(ledger_key_answer, at, 8);
LEDGER_SIZE(ledger_block_answer, 384); LEDGER_AT(ledger_block_answer, refusal, 0); LEDGER_AT(ledger_block_answer, place, 4);
LEDGER_AT(ledger_block_answer, next, 8); LEDGER_AT(ledger_block_answer, block, 16);
LEDGER_SIZE(ledger_step_answer, 392); LEDGER_AT(ledger_step_answer, refusal, 0); LEDGER_AT(ledger_step_answer, place, 4);
LEDGER_AT(ledger_step_answer, end, 8); LEDGER_AT(ledger_step_answer, next, 16); LEDGER_AT(ledger_step_answer, block, 24);
LEDGER_SIZE(ledger_check_answer, 528); LEDGER_AT(ledger_check_answer, refusal, 0); LEDGER_AT(ledger_check_answer, place, 4);
LEDGER_AT(ledger_check_answer, count, 8); LEDGER_AT(ledger_check_answer, releases, 16);
LEDGER_SIZE(ledger_choose_answer, 12); LEDGER_AT(ledger_choose_answer, refusal, 0); LEDGER_AT(ledger_choose_answer, place, 4);
LEDGER_AT(ledger_choose_answer, delivered, 8);
LEDGER_SIZE(ledger_adopt_answer, 24); LEDGER_AT(ledger_adopt_answer, refusal, 0); LEDGER_AT(ledger_adopt_answer, place, 4);
LEDGER_AT(ledger_adopt_answer, length, 8); LEDGER_AT(ledger_adopt_answer, count, 16);
LEDGER_SIZE(ledger_pool_answer, 2064); LEDGER_AT(ledger_pool_answer, refusal, 0); LEDGER_AT(ledger_pool_answer, place, 4);
LEDGER_AT(ledger_pool_answer, pool, 8);
LEDGER_SIZE(ledger_issue_answer, 16); LEDGER_AT(ledger_issue_answer, refusal, 0); LEDGER_AT(ledger_issue_answer, place, 4);
LEDGER_AT(ledger_issue_answer, length, 8);
LEDGER_SIZE(ledger_report_answer, 536); LEDGER_AT(ledger_report_answer, refusal, 0); LEDGER_AT(ledger_report_answer, place, 4);
LEDGER_AT(ledger_report_answer, held, 8); LEDGER_AT(ledger_report_answer, settled, 12); LEDGER_AT(ledger_report_answer, settled_length, 16);
LEDGER_AT(ledger_report_answer, releases, 24);
LEDGER_SIZE(ledger_manifest_answer, 8); LEDGER_AT(ledger_manifest_answer, refusal, 0); LEDGER_AT(ledger_manifest_answer, place, 4);
#undef LEDGER_AT
#undef LEDGER_SIZE
#undef LEDGER_LAYOUT

#ifdef __cplusplus
}
#endif

#endif
