/* What goes wrong on a controller, and what its host does then: a damaged chain, a damaged pool, restarts. It is controller 6 of a station of six,
   one of whom may be faulty. The other five hold one chain, so they act as one here. It prints what happens, and stops with exit status 1 at the
   first answer that is not as it should be. Signing and verifying are made up (example.h). */
#include "example.h"

/* What a controller works on, and stores. */
typedef struct {
    uint8_t held[LEDGER_CHAIN_BYTES];
    size_t length;
    ledger_pool pool;
    ledger_slot signed_slot; /* the last slot that it has signed a block for. The held chain can't tell: it may be lost, or be replaced */
    bool faulty;             /* it counts among the t faulty: its report is not to be used in this run any more */
} controller;

static controller others, six;

/* What of controller 6 outlasts a restart. */
static controller stored;

/* The chain that controller 6 has sent last. */
static uint8_t sent[LEDGER_CHAIN_BYTES];
static size_t sent_length;

/* After each call that changes something, and before anything is sent. A host writes it beside the old one and then takes it in the old one's
   place, so that a power failure leaves the one or the other, and no mixture. */
static void store(void) { stored = six; }

static void told(ledger_slot now, const char *what) { printf("slot %" PRIu32 ": %s\n", now.number, what); }

static void refused(ledger_slot now, const char *call, uint32_t refusal, ledger_block_count place) {
    printf("slot %" PRIu32 ": %s: refused %" PRIu32 " %" PRIu32 ", %s\n", now.number, call, refusal, place.number, ledger_refusal_name(refusal));
}

/* The length that is answered is what to hold from then on, on a refusal too. */
static ledger_adopt_answer adopt(controller *to, const uint8_t *chain, size_t length, ledger_slot now) {
    ledger_adopt_answer adopted =
        ledger_adopt_verified(genesis, genesis_length, now, to->held, sizeof to->held, to->length, chain, length, made_up_verify, NULL);
    to->length = adopted.length;
    return adopted;
}

/* Controller 6 is given what the others hold. */
static void deliver(ledger_slot now) {
    ledger_adopt_answer adopted = adopt(&six, others.held, others.length, now);
    if (adopted.refusal != LEDGER_NO_REFUSAL) {
        refused(now, "adopt", adopted.refusal, adopted.place);
        return;
    }
    store();
    printf("slot %" PRIu32 ": adopts %zu bytes and holds %" PRIu32 " blocks\n", now.number, adopted.length, adopted.count.number);
}

/* The pool that is answered takes the old one's place, on a refusal too: then it is the old one. */
static ledger_pool_answer clear(controller *c, ledger_slot now) {
    ledger_pool_answer dropped = ledger_drop_entries(genesis, genesis_length, now, c->held, sizeof c->held, c->length, c->pool);
    c->pool = dropped.pool;
    return dropped;
}

static ledger_pool_answer offer(controller *to, ledger_slot now, uint64_t expected, uint64_t new_release) {
    ledger_order order = {.display = DISPLAY, .expected = expected, .new_release = new_release};
    ledger_pool_answer added = ledger_add_order(genesis, genesis_length, now, to->held, sizeof to->held, to->length, to->pool, order, DEPOT);
    to->pool = added.pool;
    return added;
}

/* The block of a controller whose turn it is. */
static void append(controller *c, uint32_t number, ledger_slot now) {
    ledger_issue_answer issued = ledger_issue(genesis, genesis_length, now, c->held, sizeof c->held, c->length, c->pool, number, made_up_sign,
                                              keys[number - 1]);
    accepted("issue", issued.refusal, issued.place);
    c->length = issued.length;
}

/* Sends what is stored, and nothing else. */
static void send(ledger_slot now) {
    memcpy(sent, stored.held, stored.length);
    sent_length = stored.length;
    printf("slot %" PRIu32 ": sends %zu bytes\n", now.number, sent_length);
}

/* At most one block is signed for a slot, whatever has happened since. So first the slot is looked at; then the block is signed, stored, and
   sent. */
static void issue(ledger_slot now) {
    if (six.signed_slot.number >= now.number) {
        told(now, "has signed for this slot, and signs nothing");
        return;
    }
    append(&six, 6, now);
    six.signed_slot = now;
    store();
    told(now, "issues and stores a block");
    send(now);
}

/* Its report, which nobody may use once it counts as faulty. */
static void report(ledger_slot now) {
    ledger_report_answer answer = ledger_report(genesis, genesis_length, now, six.held, sizeof six.held, six.length);
    if (answer.refusal != LEDGER_NO_REFUSAL)
        refused(now, "report", answer.refusal, answer.place);
    else
        printf("slot %" PRIu32 ": report on %" PRIu32 " blocks, %s\n", now.number, answer.held.number, six.faulty ? "not to be used" : "good");
}

/* The way out of 17, and of a stored chain that does not verify: no blocks, until the next whole chain is delivered. */
static void drop_chain(ledger_slot now) {
    six.length = 0;
    six.faulty = true;
    store();
    told(now, "puts its length to 0");
}

/* The way out of 18. The orders that were in the pool have to be offered again. */
static void empty_pool(ledger_slot now) {
    memset(&six.pool, 0, sizeof six.pool);
    six.faulty = true;
    store();
    told(now, "empties its pool");
}

/* Comes back with what it has stored, and judges it: first by a report, which sees a length that can't be, then by all signatures, since no link
   covers the last block. A block of this slot is sent again: perhaps it was not sent. */
static void restart(ledger_slot now) {
    six = stored;
    told(now, "restarts");
    ledger_report_answer answer = ledger_report(genesis, genesis_length, now, six.held, sizeof six.held, six.length);
    if (answer.refusal != LEDGER_NO_REFUSAL || !ledger_chain_verifies(genesis, genesis_length, six.held, six.length, made_up_verify, NULL))
        drop_chain(now);
    else if (six.signed_slot.number == now.number)
        send(now);
}

/* Slots 1 to 3: one damaged byte in the held chain. Every delivery is refused, until the length is 0. */
static void damaged_chain(void) {
    ledger_slot now = {1};
    ledger_pool_answer added = offer(&others, now, 7, 8);
    accepted("add", added.refusal, added.place);
    append(&others, 1, now);
    now.number = 2;
    deliver(now);
    append(&others, 2, now);
    report(now);
    told(now, "a byte of its chain is damaged");
    six.held[0] ^= 1;
    now.number = 3;
    deliver(now);
    deliver(now);
    report(now);
    drop_chain(now);
    deliver(now);
    report(now);
    append(&others, 3, now);
}

/* Slot 4: a damaged pool. It can't be cleared, and an order is refused, until the pool is empty. */
static void damaged_pool(void) {
    ledger_slot now = {4};
    deliver(now);
    told(now, "its pool is damaged");
    six.pool.count = LEDGER_POOL_ROOM + 1;
    ledger_pool_answer answer = clear(&six, now);
    refused(now, "drop", answer.refusal, answer.place);
    answer = offer(&six, now, 8, 9);
    refused(now, "add", answer.refusal, answer.place);
    empty_pool(now);
    answer = offer(&six, now, 8, 9);
    accepted("add", answer.refusal, answer.place);
    store();
    told(now, "pools an order");
    append(&others, 4, now);
}

/* Slots 5 and 6: restarts behind its own block, the second time with damage in that block. */
static void restarts(void) {
    ledger_slot now = {5};
    deliver(now);
    append(&others, 5, now);
    now.number = 6;
    deliver(now);
    issue(now);
    restart(now);
    issue(now);
    told(now, "the last byte of its chain is damaged");
    six.held[six.length - 1] ^= 1;
    store();
    report(now);
    restart(now);
    issue(now);
}

/* Slots 7 and 8: the others have taken its block, and it takes their chain. */
static void comes_back(void) {
    ledger_slot now = {7};
    ledger_adopt_answer adopted = adopt(&others, sent, sent_length, now);
    accepted("the others' adopt", adopted.refusal, adopted.place);
    append(&others, 1, now);
    now.number = 8;
    deliver(now);
    expect("its own block is in the chain", memcmp(six.held, sent, sent_length) == 0);
}

int main(void) {
    make_genesis(6, 1); /* n and t */
    damaged_chain();
    damaged_pool();
    restarts();
    comes_back();
    return EXIT_SUCCESS;
}
