/* How deep the stack gets in each call of include/ledger.h and in the helpers of ledger_host.h that go through several of them, for the table in
   docs/BENCHMARKS.md: the frames, the arguments by value and the answer. Each call is made on good arguments, on a stack that was painted before; the
   lowest byte that is no longer paint tells. The exit status is 1 if a call takes more than its header says. */
#define _XOPEN_SOURCE 600
#include "manifests.h"
#include "sample.h"

#include <pthread.h>
#include <stdio.h>
#include <stdlib.h>

#define STACK_BYTES (1 << 18)
#define PAINT 0xA5

static struct chain sample;
static const uint8_t good[2] = {LEDGER_GOOD_VERDICT, LEDGER_GOOD_VERDICT};
static const ledger_slot now = {20};
static uint8_t held[3 * LEDGER_BLOCK_BYTES];
static uint8_t out[LEDGER_BLOCK_BYTES];
static ledger_genesis table;
static ledger_block block;
static ledger_pool pool;
static ledger_order order = {.display = 2, .expected = 42, .new_release = 43};
static ledger_signature signature;

/* The stack below the frame that makes the call, and how much of it was in use where a helper called back at the deepest. */
static volatile uint8_t *frame;
static size_t called_back;

static void note_depth(void) {
    volatile uint8_t here = 0;
    size_t in_use = (size_t)(frame - &here);
    if (in_use > called_back)
        called_back = in_use;
}

static bool verify(void *context, const uint8_t key[LEDGER_KEY_BYTES], const uint8_t *text, size_t text_length,
                   const uint8_t theirs[LEDGER_SIGNATURE_BYTES]) {
    (void)context, (void)key, (void)text, (void)text_length, (void)theirs;
    note_depth();
    return true;
}

static ledger_signature sign(void *context, const uint8_t *text, size_t text_length) {
    (void)context, (void)text, (void)text_length;
    note_depth();
    return signature;
}

/* What is left of an answer: the number of its refusal, which must be 0. */
static volatile uint32_t refusal;

#define G sample.genesis, sample.genesis_length
#define HELD held, sizeof held, sample.length

static void read_number(void) { refusal = ledger_read_number(G, 0).refusal; }
static void write_number(void) { refusal = ledger_write_number(300, 0, out, sizeof out).refusal; }
static void digest(void) { refusal = ledger_digest(G).refusal; }
static void read_genesis(void) { refusal = ledger_read_genesis(G).refusal; }
static void find_key(void) { refusal = ledger_find_key(G, 6).refusal; }
static void turn(void) { refusal = ledger_turn(table, now) - 2; }
static void depth(void) { refusal = (uint32_t)ledger_depth(table) - 4; }
static void read_block(void) { refusal = ledger_read_block(sample.bytes, sample.length, 0).refusal; }
static void write_block(void) { refusal = ledger_write_block(block, 0, out, sizeof out).refusal; }
static void slot_text(void) { refusal = ledger_slot_text(now, out, sizeof out).refusal; }
static void walk_step(void) { refusal = ledger_walk_step(sample.bytes, sample.length, 0).refusal; }
static void check(void) { refusal = ledger_check(G, now, sample.bytes, sample.length, good, 2).refusal; }
static void choose(void) { refusal = ledger_choose(G, now, held, sample.first, sample.bytes, sample.length, good, 2).refusal; }
static void adopt(void) {
    refusal = ledger_adopt(G, now, held, sizeof held, sample.first, sample.bytes, sample.length, good, 2).refusal;
}
static void drop_entries(void) { refusal = ledger_drop_entries(G, now, HELD, pool).refusal; }
static void add_order(void) { refusal = ledger_add_order(G, now, HELD, pool, order, 0).refusal; }
static void draft(void) { refusal = ledger_draft(G, now, HELD, pool, 2, signature, out, sizeof out).refusal; }
static void block_text(void) { refusal = ledger_block_text(G, now, HELD, pool, 2, signature, out, sizeof out).refusal; }
static void append(void) { refusal = ledger_append(G, now, HELD, pool, 2, signature, signature).refusal; }
static void report(void) { refusal = ledger_report(G, now, HELD).refusal; }
static void check_manifest(void) {
    refusal = ledger_check_manifest(image_300, sizeof image_300, manifest_300, sizeof manifest_300, manifest_key, sizeof manifest_key, 300).refusal;
}
static void adopt_verified(void) {
    refusal = ledger_adopt_verified(G, now, held, sizeof held, sample.first, sample.bytes, sample.length, verify, NULL).refusal;
}
static void chain_verifies(void) { refusal = !ledger_chain_verifies(G, held, sample.length, verify, NULL); }
static void issue(void) { refusal = ledger_issue(G, now, HELD, pool, 2, sign, NULL).refusal; }
static void verdicts(void) {
    uint8_t made[LEDGER_SLOTS];
    refusal = ledger_verdicts(G, now, held, sizeof held, sample.first, sample.bytes, sample.length, verify, NULL, made).refusal;
}

struct call {
    const char *name;
    void (*make)(void);
    size_t most; /* what the header says */
};

#define CALL(name, NAME) {"`ledger_" #name "`", name, LEDGER_STACK_##NAME}

static const struct call calls[] = {
    CALL(read_number, READ_NUMBER), CALL(write_number, WRITE_NUMBER), CALL(digest, DIGEST), CALL(read_genesis, READ_GENESIS),
    CALL(find_key, FIND_KEY), CALL(turn, TURN), CALL(depth, DEPTH), CALL(read_block, READ_BLOCK), CALL(write_block, WRITE_BLOCK),
    CALL(slot_text, SLOT_TEXT), CALL(walk_step, WALK_STEP), CALL(check, CHECK), CALL(choose, CHOOSE), CALL(adopt, ADOPT),
    CALL(drop_entries, DROP_ENTRIES), CALL(add_order, ADD_ORDER), CALL(draft, DRAFT), CALL(block_text, BLOCK_TEXT), CALL(append, APPEND),
    CALL(report, REPORT), CALL(check_manifest, CHECK_MANIFEST),
    CALL(verdicts, VERDICTS), CALL(adopt_verified, ADOPT_VERIFIED), CALL(chain_verifies, CHAIN_VERIFIES), CALL(issue, ISSUE),
};

static volatile uint8_t *stack;
static size_t used;

/* Paints what is below its own frame, makes a call, and looks for the lowest byte that has changed. The call is made once before, so that what the
   dynamic linker does at the first one is not measured. */
static void *measured(void *given) {
    const struct call *call = given;
    __asm__ volatile("mov %%rsp, %0" : "=r"(frame));
    size_t base = (size_t)(frame - stack);
    call->make();
    for (size_t i = 0; i < base; i++)
        stack[i] = PAINT;
    call->make();
    size_t lowest = 0;
    while (lowest < base && stack[lowest] == PAINT)
        lowest++;
    used = base - lowest;
    return NULL;
}

/* Makes a call on a stack of its own, and gives whether it takes no more than it may. */
static bool row(const struct call *call) {
    pthread_attr_t own;
    pthread_t thread;
    if (pthread_attr_init(&own) != 0 || pthread_attr_setstack(&own, (void *)stack, STACK_BYTES) != 0 ||
        pthread_create(&thread, &own, measured, (void *)call) != 0 || pthread_join(thread, NULL) != 0 || refusal != 0) {
        printf("%s: not measured, refusal %u\n", call->name, (unsigned)refusal);
        exit(EXIT_FAILURE);
    }
    pthread_attr_destroy(&own);
    printf("| %s | %zu | %zu |\n", call->name, used, call->most);
    return used <= call->most;
}

/* Two blocks are held, and an order is pooled. */
static void make_sample(void) {
    chain_of(&sample);
    memcpy(held, sample.bytes, sample.length);
    table = ledger_read_genesis(G).table;
    block = block_after(G, 1, 40);
    pool = ledger_add_order(G, now, HELD, pool, order, 0).pool;
    order = (ledger_order){.display = 2, .expected = 43, .new_release = 44};
}

int main(void) {
    void *memory;
    if (posix_memalign(&memory, 4096, STACK_BYTES) != 0)
        return EXIT_FAILURE;
    stack = memory;
    make_sample();
    bool within = true;
    printf("| call | bytes of stack | the header says |\n|---|---|---|\n");
    for (size_t i = 0; i < sizeof calls / sizeof *calls; i++)
        within = row(&calls[i]) && within;
    printf("| where a helper calls back | %zu | %d |\n", called_back, LEDGER_STACK_CALLBACK);
    return within && called_back <= LEDGER_STACK_CALLBACK ? EXIT_SUCCESS : EXIT_FAILURE;
}
