/* A whole small run through include/ledger.h and ledger_host.h: two controllers, of whom none is faulty, keep one chain over four slots. This is
   the example to copy from. What a host does itself is made up: signing and verifying (example.h), and sending, which is lending one controller's
   chain to the other's calls. It prints what happens, and stops with exit status 1 at the first answer that is not as it should be. */
#include "example.h"

/* What a controller keeps. A full-sized buffer takes every chain. */
typedef struct {
    uint32_t number;
    uint8_t held[LEDGER_CHAIN_BYTES];
    size_t length;
    ledger_pool pool;
} controller;

/* Zeros but for the numbers: no blocks, no pooled orders. */
static controller one = {.number = 1}, two = {.number = 2};

/* Begins a line on what a controller does in a slot. */
static void line(const controller *c, ledger_slot now) {
    printf("slot %" PRIu32 ": controller %" PRIu32 " ", now.number, c->number);
}

/* The other controller's chain arrives. The length answered is what to hold from then on: a chain that is not longer is refused with 11, and
   changes nothing. */
static void deliver(controller *to, const controller *from, ledger_slot now) {
    ledger_adopt_answer adopted = ledger_adopt_verified(genesis, genesis_length, now, to->held, sizeof to->held, to->length, from->held,
                                                        from->length, made_up_verify, NULL);
    to->length = adopted.length;
    line(to, now);
    if (adopted.refusal == LEDGER_NO_REFUSAL)
        printf("adopts %zu bytes and holds %" PRIu32 " blocks\n", adopted.length, adopted.count.number);
    else
        printf("keeps what it holds: refused %" PRIu32 " %" PRIu32 ", %s\n", adopted.refusal, adopted.place.number,
               ledger_refusal_words(adopted.refusal));
}

/* Orders that no longer count are dropped. A host does this in each slot, or as here before it adds one. The pool that comes back takes the old one's
   place, whatever becomes of the order. */
static void clear(controller *c, ledger_slot now) {
    ledger_pool_answer dropped = ledger_drop_entries(genesis, genesis_length, now, c->held, sizeof c->held, c->length, c->pool);
    accepted("drop", dropped.refusal, dropped.place);
    c->pool = dropped.pool;
}

static void offer(controller *to, ledger_slot now, uint64_t expected, uint64_t new_release) {
    ledger_order order = {.display = DISPLAY, .expected = expected, .new_release = new_release};
    clear(to, now);
    ledger_pool_answer added = ledger_add_order(genesis, genesis_length, now, to->held, sizeof to->held, to->length, to->pool, order, DEPOT);
    accepted("add", added.refusal, added.place);
    to->pool = added.pool;
    line(to, now);
    printf("pools display %d from %" PRIu64 " to %" PRIu64 "\n", DISPLAY, expected, new_release);
}

/* A controller whose turn it is signs the two texts and appends its block. Then a host stores the block, and after that sends the chain, as
   recovery.c does. */
static void issue(controller *c, ledger_slot now) {
    ledger_issue_answer issued = ledger_issue(genesis, genesis_length, now, c->held, sizeof c->held, c->length, c->pool, c->number,
                                              made_up_sign, keys[c->number - 1]);
    accepted("issue", issued.refusal, issued.place);
    line(c, now);
    printf("issues a block of %zu bytes and holds %zu bytes\n", issued.length - c->length, issued.length);
    c->length = issued.length;
}

/* What the displays are to boot, as far as it is settled. */
static ledger_report_answer report(const controller *c, ledger_slot now) {
    ledger_report_answer told = ledger_report(genesis, genesis_length, now, c->held, sizeof c->held, c->length);
    accepted("report", told.refusal, told.place);
    line(c, now);
    printf("reports %" PRIu32 " held, %" PRIu32 " settled, display %d is to boot %" PRIu64 "\n", told.held.number, told.settled.number, DISPLAY,
           told.releases[DISPLAY]);
    return told;
}

/* Both report the same settled blocks and the same releases after them. */
static void reports(ledger_slot now) {
    ledger_report_answer first = report(&one, now);
    ledger_report_answer second = report(&two, now);
    expect("same settled blocks", first.settled_length == second.settled_length && memcmp(one.held, two.held, first.settled_length) == 0);
    expect("same releases", memcmp(first.releases, second.releases, sizeof first.releases) == 0);
}

/* In each slot the deliveries come first, then the block of the controller whose turn it is. */
int main(void) {
    make_genesis(2, 0); /* n and t */
    ledger_slot now = {1};
    offer(&one, now, 7, 8);
    issue(&one, now);
    now.number = 2;
    deliver(&two, &one, now);
    offer(&two, now, 8, 300);
    issue(&two, now);
    now.number = 3;
    deliver(&one, &two, now);
    deliver(&one, &two, now);
    reports(now);
    issue(&one, now);
    now.number = 4;
    deliver(&two, &one, now);
    reports(now);
    return EXIT_SUCCESS;
}
