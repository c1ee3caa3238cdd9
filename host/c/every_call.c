/* Each call of include/ledger.h from C, with arguments and answers that can be told apart: nothing else ties the header to the archive.
   It prints the line of the first answer that is not as expected, and then its exit status is 1. */
#include "facts.h"
#include "manifests.h"
#include "sample.h"

#define FILLER 0xEE

/* Field by field: what lies between the fields of a struct has no value. */
static bool same_order(ledger_order a, ledger_order b) {
    return a.display == b.display && a.expected == b.expected && a.new_release == b.new_release;
}

static bool same_block(const ledger_block *a, const ledger_block *b) {
    for (int i = 0; i < LEDGER_ORDERS; i++)
        if (!same_order(a->front.orders.list[i], b->front.orders.list[i]))
            return false;
    return a->front.orders.count == b->front.orders.count && a->front.slot.number == b->front.slot.number &&
           memcmp(a->front.link, b->front.link, LEDGER_LINK_BYTES) == 0 &&
           memcmp(a->front.slot_signature, b->front.slot_signature, LEDGER_SIGNATURE_BYTES) == 0 &&
           memcmp(a->block_signature, b->block_signature, LEDGER_SIGNATURE_BYTES) == 0;
}

static bool same_entry(ledger_entry a, ledger_entry b) {
    return same_order(a.order, b.order) && a.slot.number == b.slot.number && a.depot == b.depot;
}

static bool same_pool(const ledger_pool *a, const ledger_pool *b) {
    for (int i = 0; i < LEDGER_POOL_ROOM; i++)
        if (!same_entry(a->entries[i], b->entries[i]))
            return false;
    return a->count == b->count;
}

static int numbers(void) {
    uint8_t out[5];
    memset(out, FILLER, sizeof out);
    ledger_write_answer written = ledger_write_number(300, 1, out, sizeof out);
    EXPECT(written.refusal == 0 && written.place.number == 0 && written.next == 3);
    EXPECT(memcmp(out, "\xEE\xAC\x02\xEE\xEE", 5) == 0);
    ledger_number_answer read = ledger_read_number(out, sizeof out, 1);
    EXPECT(read.refusal == 0 && read.place.number == 0 && read.value == 300 && read.next == 3);
    EXPECT(ledger_write_number(UINT32_MAX, 1, out, sizeof out).refusal == LEDGER_SHORT_BUFFER);
    EXPECT(ledger_read_number(out, 2, 1).refusal == LEDGER_CUT);
    EXPECT(ledger_read_number((const uint8_t *)"\x80", 2, 0).refusal == LEDGER_BAD_NUMBER);
    return 0;
}

/* The largest number has five bytes; one above it is refused before the buffer is looked at. */
static int large_numbers(void) {
    uint8_t out[LEDGER_NUMBER_BYTES];
    memset(out, FILLER, sizeof out);
    EXPECT(ledger_write_number(LEDGER_LARGEST + 1, 0, out, sizeof out).refusal == LEDGER_BAD_NUMBER);
    EXPECT(ledger_write_number(LEDGER_LARGEST + 1, 0, NULL, 0).refusal == LEDGER_BAD_NUMBER);
    EXPECT(ledger_write_number(UINT64_MAX, 0, out, sizeof out).refusal == LEDGER_BAD_NUMBER);
    EXPECT(ledger_write_number(LEDGER_LARGEST, 0, out, 4).refusal == LEDGER_SHORT_BUFFER && out[0] == FILLER);
    ledger_write_answer written = ledger_write_number(LEDGER_LARGEST, 0, out, sizeof out);
    EXPECT(written.refusal == 0 && written.next == 5 && memcmp(out, "\xFF\xFF\xFF\xFF\x7F", 5) == 0);
    ledger_number_answer read = ledger_read_number(out, sizeof out, 0);
    EXPECT(read.refusal == 0 && read.value == UINT64_C(34359738367) && read.next == 5);
    read = ledger_read_number((const uint8_t *)"\xFF\xFF\xFF\xFF\x10", 5, 0);
    EXPECT(read.refusal == 0 && read.value == UINT64_C(4563402751) && read.next == 5);
    read = ledger_read_number((const uint8_t *)"\x80\x80\x80\x80\x80", 5, 0);
    EXPECT(read.refusal == LEDGER_BAD_NUMBER && read.value == 0 && read.next == 0);
    return 0;
}

/* A digest has as many bytes as a link, and the longest message is digested. */
static int digests(void) {
    static uint8_t message[LEDGER_MESSAGE_BYTES + 1];
    ledger_digest_answer digested = ledger_digest(message, LEDGER_MESSAGE_BYTES);
    EXPECT(digested.refusal == 0 && digested.place.number == 0 && sizeof digested.digest == LEDGER_LINK_BYTES);
    digested = ledger_digest(message, LEDGER_MESSAGE_BYTES + 1);
    EXPECT(digested.refusal == LEDGER_TOO_LONG && digested.place.number == 0);
    return 0;
}

static int tables(void) {
    uint8_t genesis[LEDGER_GENESIS_BYTES];
    size_t length = genesis_of(genesis);
    ledger_genesis_answer read = ledger_read_genesis(genesis, length);
    EXPECT(read.refusal == 0 && read.place.number == 0);
    EXPECT(read.table.n == 6 && read.table.t == 1 && read.table.u == LEDGER_POOL_SLOTS);
    EXPECT(read.table.releases[1] == 0 && read.table.releases[2] == 40 && read.table.releases[63] == 0);
    EXPECT(read.table.keys_at == length - 6 * LEDGER_KEY_BYTES);
    EXPECT(ledger_read_genesis(genesis, length - 1).refusal == LEDGER_BAD_GENESIS);
    ledger_key_answer key = ledger_find_key(genesis, length, 6);
    EXPECT(key.refusal == 0 && key.place.number == 0 && key.at == length - LEDGER_KEY_BYTES && genesis[key.at] == 6);
    EXPECT(ledger_find_key(genesis, length, 7).refusal == LEDGER_WRONG_CONTROLLER);
    EXPECT(ledger_turn(read.table, (ledger_slot){7}) == 1);
    EXPECT(ledger_turn(read.table, (ledger_slot){256}) == 4);
    EXPECT(ledger_turn(read.table, (ledger_slot){0}) == 1);
    EXPECT(ledger_depth(read.table) == 4);
    EXPECT(ledger_depth(ledger_read_genesis(genesis, length - 1).table) == 0);
    return 0;
}

static int blocks(void) {
    uint8_t out[LEDGER_BLOCK_BYTES];
    memset(out, FILLER, sizeof out);
    ledger_block block = block_after((const uint8_t *)"abc", 3, 256, 40);
    EXPECT(memcmp(block.front.link, "\xBA\x78\x16\xBF", 4) == 0);
    ledger_write_answer written = ledger_write_block(block, 3, out, sizeof out);
    EXPECT(written.refusal == 0 && written.place.number == 0 && written.next == 169);
    EXPECT(out[2] == FILLER && out[3] == 0xBA && out[168] == 0xB1 && out[169] == FILLER);
    EXPECT(memcmp(out + 35, "\x01\x02\x28\x29\x80\x02\x51", 7) == 0);
    ledger_block_answer read = ledger_read_block(out, sizeof out, 3);
    EXPECT(read.refusal == 0 && read.place.number == 0 && read.next == 169);
    EXPECT(same_block(&read.block, &block));
    EXPECT(ledger_read_block(out, 100, 3).refusal == LEDGER_CUT);
    block.front.orders.list[0].display = LEDGER_DISPLAYS;
    EXPECT(ledger_write_block(block, 3, out, sizeof out).refusal == LEDGER_OUT_OF_RANGE);
    written = ledger_slot_text((ledger_slot){256}, out, LEDGER_SLOT_TEXT_BYTES);
    EXPECT(written.refusal == 0 && written.place.number == 0 && written.next == 6);
    EXPECT(memcmp(out, "slot\x80\x02", 6) == 0 && memcmp(out, LEDGER_SLOT_LETTERS, sizeof LEDGER_SLOT_LETTERS - 1) == 0);
    EXPECT(sizeof LEDGER_SLOT_LETTERS - 1 == LEDGER_SLOT_LETTERS_BYTES && sizeof LEDGER_BLOCK_LETTERS - 1 == LEDGER_BLOCK_LETTERS_BYTES);
    EXPECT(ledger_slot_text((ledger_slot){0}, out, sizeof out).refusal == LEDGER_BAD_CLOCK);
    return 0;
}

/* Both releases of an order have 35 bits. One above the largest is refused within the count, and behind it is not looked at. */
static int large_releases(void) {
    const ledger_order large = {.display = 2, .expected = LEDGER_LARGEST + 1, .new_release = UINT64_MAX};
    uint8_t out[LEDGER_BLOCK_BYTES];
    ledger_block block = block_after((const uint8_t *)"abc", 3, 9, UINT64_C(1) << 32);
    block.front.orders.list[0].new_release = LEDGER_LARGEST;
    ledger_write_answer written = ledger_write_block(block, 0, out, sizeof out);
    EXPECT(written.refusal == 0 && written.next == 173);
    EXPECT(memcmp(out + 32, "\x01\x02\x80\x80\x80\x80\x10\xFF\xFF\xFF\xFF\x7F\x09", 13) == 0);
    ledger_block_answer read = ledger_read_block(out, sizeof out, 0);
    EXPECT(read.refusal == 0 && read.next == 173 && same_block(&read.block, &block));
    block.front.orders.list[1] = large;
    EXPECT(ledger_write_block(block, 0, out, sizeof out).next == 173);
    block.front.orders.list[0].new_release = LEDGER_LARGEST + 1;
    EXPECT(ledger_write_block(block, 0, out, sizeof out).refusal == LEDGER_OUT_OF_RANGE);
    block.front.orders.list[0] = (ledger_order){.display = 2, .expected = LEDGER_LARGEST + 1, .new_release = 1};
    EXPECT(ledger_write_block(block, 0, NULL, 0).refusal == LEDGER_OUT_OF_RANGE);
    return 0;
}

/* Display 63 starts at the largest release: the table, the check and the report tell it. */
static int a_large_start(void) {
    const uint64_t releases[LEDGER_DISPLAYS] = {[63] = LEDGER_LARGEST};
    const uint8_t key[LEDGER_KEY_BYTES] = {0};
    const ledger_slot now = {1};
    uint8_t genesis[LEDGER_GENESIS_BYTES];
    size_t length = ledger_write_genesis(1, 0, releases, key, sizeof key, genesis).length;
    EXPECT(length == 3 + 63 + 5 + 32 && ledger_read_genesis(genesis, length).table.releases[63] == LEDGER_LARGEST);
    EXPECT(ledger_check(genesis, length, now, NULL, 0, NULL, 0).releases[63] == LEDGER_LARGEST);
    EXPECT(ledger_report(genesis, length, now, NULL, 0, 0).releases[63] == LEDGER_LARGEST);
    return 0;
}

static int checks(const struct chain *c) {
    const ledger_slot now = {20};
    ledger_check_answer checked = ledger_check(c->genesis, c->genesis_length, now, c->bytes, c->length, (const uint8_t *)"\3\3", 2);
    EXPECT(checked.refusal == 0 && checked.place.number == 0 && checked.count.number == 2);
    EXPECT(checked.releases[0] == 0 && checked.releases[2] == 42 && checked.releases[63] == 0);
    checked = ledger_check(c->genesis, c->genesis_length, now, c->bytes, c->length, (const uint8_t *)"\3\2", 2);
    EXPECT(checked.refusal == LEDGER_BAD_VERDICT && checked.place.number == 2 && checked.count.number == 0);
    checked = ledger_check(c->genesis, c->genesis_length, now, c->bytes, c->length, (const uint8_t *)"\3\3", 1);
    EXPECT(checked.refusal == LEDGER_BAD_VERDICT && checked.place.number == 2);
    checked = ledger_check(c->genesis, c->genesis_length, now, c->bytes, c->length, (const uint8_t *)"\3\3\2", 3);
    EXPECT(checked.refusal == 0 && checked.count.number == 2);
    ledger_step_answer step = ledger_walk_step(c->bytes, c->length, c->first);
    EXPECT(step.refusal == 0 && step.place.number == 0 && !step.end && step.next == c->length);
    EXPECT(step.block.front.slot.number == 3 && step.block.block_signature[63] == 0xB1);
    step = ledger_walk_step(c->bytes, c->length, step.next);
    EXPECT(step.refusal == 0 && step.end && step.next == c->length);
    step = ledger_walk_step(c->bytes, c->length - 1, c->first);
    EXPECT(step.refusal == LEDGER_CUT && !step.end && step.next == c->first);
    return 0;
}

static int adopts(const struct chain *c) {
    const ledger_slot now = {20};
    const uint8_t verdicts[2] = {LEDGER_GOOD_VERDICT, LEDGER_GOOD_VERDICT};
    ledger_choose_answer shown =
        ledger_choose(c->genesis, c->genesis_length, now, c->bytes, c->first, c->bytes, c->length, verdicts, 2);
    EXPECT(shown.refusal == 0 && shown.place.number == 0 && shown.delivered);
    shown = ledger_choose(c->genesis, c->genesis_length, now, c->bytes, c->length, c->bytes, c->first, verdicts, 2);
    EXPECT(shown.refusal == LEDGER_NOT_LONGER && shown.place.number == 0 && !shown.delivered);
    uint8_t held[2 * LEDGER_BLOCK_BYTES];
    memset(held, FILLER, sizeof held);
    memcpy(held, c->bytes, c->first);
    ledger_adopt_answer adopted = ledger_adopt(c->genesis, c->genesis_length, now, held, c->length - 1, c->first, c->bytes, c->length,
                                               verdicts, 2);
    EXPECT(adopted.refusal == LEDGER_SHORT_BUFFER && adopted.length == c->first && held[c->first] == FILLER);
    adopted = ledger_adopt(c->genesis, c->genesis_length, now, held, sizeof held, c->first, c->bytes, c->length, verdicts, 2);
    EXPECT(adopted.refusal == 0 && adopted.place.number == 0 && adopted.length == c->length && adopted.count.number == 2);
    EXPECT(memcmp(held, c->bytes, c->length) == 0 && held[c->length] == FILLER);
    held[c->first] ^= 1;
    adopted = ledger_adopt(c->genesis, c->genesis_length, now, held, sizeof held, c->length, c->bytes, c->length, verdicts, 2);
    EXPECT(adopted.refusal == LEDGER_BAD_HELD && adopted.place.number == 2 && adopted.length == c->length);
    return 0;
}

/* Adds an order at slot 20, controller 2's turn, behind the two blocks that are held, and issues it. */
static int issues(const struct chain *c) {
    const ledger_slot now = {20};
    uint8_t held[3 * LEDGER_BLOCK_BYTES], draft[LEDGER_DRAFT_BYTES], text[LEDGER_BLOCK_TEXT_BYTES];
    memset(held, FILLER, sizeof held);
    memcpy(held, c->bytes, c->length);
    ledger_pool pool;
    memset(&pool, 0, sizeof pool);
    ledger_order order = {.display = 2, .expected = 42, .new_release = 300};
    ledger_pool_answer pooled = ledger_add_order(c->genesis, c->genesis_length, now, held, sizeof held, c->length, pool, order, 3);
    EXPECT(pooled.refusal == 0 && pooled.place.number == 0 && pooled.pool.count == 1);
    EXPECT(same_entry(pooled.pool.entries[0], (ledger_entry){.order = order, .slot = now, .depot = 3}));
    pool = pooled.pool;
    pooled = ledger_add_order(c->genesis, c->genesis_length, now, held, sizeof held, c->length, pool, order, 3);
    EXPECT(pooled.refusal == LEDGER_BAD_OFFER && same_pool(&pooled.pool, &pool));
    ledger_signature first, second;
    memset(&first, 0x51, sizeof first);
    memset(&second, 0xB1, sizeof second);
    ledger_issue_answer issued = ledger_draft(c->genesis, c->genesis_length, now, held, sizeof held, c->length, pool, 2, first, draft, sizeof draft);
    EXPECT(issued.refusal == 0 && issued.place.number == 0 && issued.length == 32 + 5 + 1 + 64);
    EXPECT(memcmp(draft + 32, "\x01\x02\x2A\xAC\x02\x14\x51", 7) == 0 && draft[issued.length - 1] == 0x51);
    issued = ledger_block_text(c->genesis, c->genesis_length, now, held, sizeof held, c->length, pool, 2, first, text, sizeof text);
    EXPECT(issued.refusal == 0 && issued.length == 5 + 102);
    EXPECT(memcmp(text, "block", 5) == 0 && memcmp(text, LEDGER_BLOCK_LETTERS, sizeof LEDGER_BLOCK_LETTERS - 1) == 0);
    EXPECT(memcmp(text + 5, draft, 102) == 0);
    issued = ledger_draft(c->genesis, c->genesis_length, now, held, sizeof held, c->length, pool, 3, first, draft, sizeof draft);
    EXPECT(issued.refusal == LEDGER_WRONG_CONTROLLER && issued.length == 0);
    issued = ledger_append(c->genesis, c->genesis_length, now, held, sizeof held, c->length, pool, 3, first, second);
    EXPECT(issued.refusal == LEDGER_WRONG_CONTROLLER && issued.length == c->length && held[c->length] == FILLER);
    issued = ledger_append(c->genesis, c->genesis_length, now, held, sizeof held, c->length, pool, 2, first, second);
    EXPECT(issued.refusal == 0 && issued.place.number == 0 && issued.length == c->length + 102 + 64);
    EXPECT(memcmp(held + c->length, draft, 102) == 0 && held[issued.length - 1] == 0xB1 && held[issued.length] == FILLER);
    return 0;
}

/* A release above the largest: 5 where it is offered, 18 in the pool; past the count it does no harm, and there zeros are answered. */
static int large_orders(const struct chain *c) {
    const ledger_slot now = {20};
    const uint8_t *genesis = c->genesis;
    const size_t n = c->genesis_length;
    ledger_pool pool;
    memset(&pool, 0, sizeof pool);
    ledger_order order = {.display = 2, .expected = 42, .new_release = LEDGER_LARGEST + 1};
    ledger_pool_answer pooled = ledger_add_order(genesis, n, now, c->bytes, sizeof c->bytes, c->length, pool, order, 0);
    EXPECT(pooled.refusal == LEDGER_OUT_OF_RANGE && pooled.place.number == 0 && same_pool(&pooled.pool, &pool));
    order.new_release = LEDGER_LARGEST;
    pool.entries[7].order.expected = LEDGER_LARGEST + 1;
    pooled = ledger_add_order(genesis, n, now, c->bytes, sizeof c->bytes, c->length, pool, order, 0);
    EXPECT(pooled.refusal == 0 && pooled.pool.count == 1 && same_order(pooled.pool.entries[0].order, order));
    EXPECT(pooled.pool.entries[7].order.expected == 0);
    pool = pooled.pool;
    pool.entries[0].order.new_release = LEDGER_LARGEST + 1;
    pooled = ledger_add_order(genesis, n, now, c->bytes, sizeof c->bytes, c->length, pool, order, 0);
    EXPECT(pooled.refusal == LEDGER_BAD_POOL && same_pool(&pooled.pool, &pool));
    return 0;
}

/* Fills a depot's room at slot 20, display by display: each order is valid where the genesis has it, at release 0. */
static ledger_pool crowded(const struct chain *c, uint32_t depot) {
    ledger_pool pool;
    memset(&pool, 0, sizeof pool);
    for (uint32_t i = 0; i < LEDGER_DEPOT_ROOM; i++) {
        ledger_order order = {.display = 3 + i, .expected = 0, .new_release = 1};
        pool = ledger_add_order(c->genesis, c->genesis_length, (ledger_slot){20}, c->bytes, sizeof c->bytes, c->length, pool, order, depot).pool;
    }
    return pool;
}

/* A depot has room for 16 entries, whatever the others have: then 20. A depot above 3 is 5 where it offers, and 18 in the pool, and so are 17 entries
   of one. */
static int depots(const struct chain *c) {
    const ledger_slot now = {20};
    const uint8_t *genesis = c->genesis;
    const size_t n = c->genesis_length;
    const ledger_order order = {.display = 2, .expected = 42, .new_release = 43};
    ledger_pool pool = crowded(c, 1);
    EXPECT(pool.count == LEDGER_DEPOT_ROOM && pool.entries[15].depot == 1 && pool.entries[16].depot == 0);
    ledger_pool_answer pooled = ledger_add_order(genesis, n, now, c->bytes, sizeof c->bytes, c->length, pool, order, 1);
    EXPECT(pooled.refusal == LEDGER_DEPOT_FULL && pooled.place.number == 0 && same_pool(&pooled.pool, &pool));
    pooled = ledger_add_order(genesis, n, now, c->bytes, sizeof c->bytes, c->length, pool, order, LEDGER_DEPOTS);
    EXPECT(pooled.refusal == LEDGER_OUT_OF_RANGE && same_pool(&pooled.pool, &pool));
    pooled = ledger_add_order(genesis, n, now, c->bytes, sizeof c->bytes, c->length, pool, order, LEDGER_DEPOTS - 1);
    EXPECT(pooled.refusal == 0 && pooled.pool.count == 17 && pooled.pool.entries[16].depot == 3);
    pool = pooled.pool;
    pool.entries[16].depot = 1;
    EXPECT(ledger_add_order(genesis, n, now, c->bytes, sizeof c->bytes, c->length, pool, order, 0).refusal == LEDGER_BAD_POOL);
    pool.entries[16].depot = LEDGER_DEPOTS;
    EXPECT(ledger_add_order(genesis, n, now, c->bytes, sizeof c->bytes, c->length, pool, order, 0).refusal == LEDGER_BAD_POOL);
    return 0;
}

/* Display 2 goes to 41 in slot 1, which is settled from slot 6 on, and to 42 in slot 3, which is from slot 8 on: so in slot 7 an entry that expects
   40 no longer counts, and one that expects 41 does, though it is not valid. Adding leaves both where they are; dropping takes the first away, and
   leaves zeros. A bad pool stays as it came. */
static int drops(const struct chain *c) {
    const ledger_slot now = {7};
    const uint8_t *genesis = c->genesis;
    const size_t n = c->genesis_length;
    const ledger_order order = {.display = 2, .expected = 42, .new_release = 50};
    ledger_pool pool;
    memset(&pool, 0, sizeof pool);
    pool.count = 2;
    pool.entries[0] = (ledger_entry){.order = {.display = 2, .expected = 40, .new_release = 43}, .slot = {7}, .depot = 1};
    pool.entries[1] = (ledger_entry){.order = {.display = 2, .expected = 41, .new_release = 44}, .slot = {2}, .depot = 2};
    pool.entries[5].depot = 9;
    ledger_pool_answer answer = ledger_add_order(genesis, n, now, c->bytes, sizeof c->bytes, c->length, pool, order, 3);
    EXPECT(answer.refusal == 0 && answer.pool.count == 3 && same_entry(answer.pool.entries[0], pool.entries[0]));
    EXPECT(same_entry(answer.pool.entries[2], (ledger_entry){.order = order, .slot = now, .depot = 3}) && answer.pool.entries[5].depot == 0);
    answer = ledger_drop_entries(genesis, n, now, c->bytes, sizeof c->bytes, c->length, pool);
    EXPECT(answer.refusal == 0 && answer.place.number == 0 && answer.pool.count == 1 && same_entry(answer.pool.entries[0], pool.entries[1]));
    EXPECT(same_entry(answer.pool.entries[1], pool.entries[2]) && answer.pool.entries[5].depot == 0);
    EXPECT(ledger_drop_entries(genesis, n, (ledger_slot){8}, c->bytes, sizeof c->bytes, c->length, pool).pool.count == 0);
    EXPECT(ledger_drop_entries(genesis, n, (ledger_slot){8}, c->bytes, sizeof c->bytes, 0, pool).pool.count == 2);
    EXPECT(ledger_drop_entries(genesis, n, (ledger_slot){257}, c->bytes, sizeof c->bytes, c->length, pool).refusal == LEDGER_BAD_CLOCK);
    answer = ledger_drop_entries(genesis, n, now, c->bytes, sizeof c->bytes, c->length - 1, pool);
    EXPECT(answer.refusal == LEDGER_BAD_HELD && answer.place.number == 2 && same_pool(&answer.pool, &pool));
    answer = ledger_drop_entries(genesis, n, (ledger_slot){6}, c->bytes, sizeof c->bytes, c->length, pool);
    EXPECT(answer.refusal == LEDGER_BAD_POOL && answer.place.number == 0 && same_pool(&answer.pool, &pool));
    return 0;
}

/* The stamps are 1 and 3, and the depth is 4. */
static int reports(const struct chain *c) {
    ledger_report_answer report =
        ledger_report(c->genesis, c->genesis_length, (ledger_slot){7}, c->bytes, sizeof c->bytes, c->length);
    EXPECT(report.refusal == 0 && report.place.number == 0);
    EXPECT(report.held.number == 2 && report.settled.number == 1 && report.settled_length == c->first);
    EXPECT(report.releases[1] == 0 && report.releases[2] == 41 && report.releases[63] == 0);
    report = ledger_report(c->genesis, c->genesis_length, (ledger_slot){2}, c->bytes, sizeof c->bytes, c->length);
    EXPECT(report.refusal == LEDGER_BAD_HELD && report.place.number == 2 && report.held.number == 0);
    report = ledger_report(c->genesis, c->genesis_length, (ledger_slot){7}, c->bytes, sizeof c->bytes, sizeof c->bytes + 1);
    EXPECT(report.refusal == LEDGER_BAD_HELD && report.place.number == 0);
    report = ledger_report(c->genesis, c->genesis_length, (ledger_slot){7}, c->bytes, sizeof c->bytes, 0);
    EXPECT(report.refusal == 0 && report.held.number == 0 && report.releases[2] == 40);
    return 0;
}

/* With length 0 the pointer may be NULL, in every slice of every call: here those of numbers, tables and single blocks. The digest of no bytes is
   the one that NIST publishes. */
static int nothing_lent(void) {
    ledger_block block = block_after((const uint8_t *)"abc", 3, 256, 40);
    EXPECT(ledger_read_number(NULL, 0, 0).refusal == LEDGER_CUT);
    EXPECT(ledger_write_number(300, 0, NULL, 0).refusal == LEDGER_SHORT_BUFFER);
    EXPECT(memcmp(ledger_digest(NULL, 0).digest, "\xE3\xB0\xC4\x42\x98\xFC\x1C\x14", 8) == 0);
    EXPECT(ledger_read_genesis(NULL, 0).refusal == LEDGER_BAD_GENESIS);
    EXPECT(ledger_find_key(NULL, 0, 1).refusal == LEDGER_BAD_GENESIS);
    EXPECT(ledger_read_block(NULL, 0, 0).refusal == LEDGER_CUT);
    EXPECT(ledger_write_block(block, 0, NULL, 0).refusal == LEDGER_SHORT_BUFFER);
    EXPECT(ledger_slot_text((ledger_slot){1}, NULL, 0).refusal == LEDGER_SHORT_BUFFER);
    ledger_step_answer step = ledger_walk_step(NULL, 0, 0);
    EXPECT(step.refusal == 0 && step.end && step.next == 0);
    return 0;
}

/* Image, manifest and key in this order, and the release as 64 bits. The manifests are from elsewhere (manifests.h). */
static int manifests(void) {
    static const uint8_t longer[LEDGER_IMAGE_BYTES + 1];
    uint8_t changed[LEDGER_MANIFEST_BYTES];
    const size_t key = LEDGER_MANIFEST_KEY_BYTES, length = 2 + LEDGER_DIGEST_BYTES + LEDGER_MANIFEST_SIGNATURE_BYTES;
    EXPECT(sizeof manifest_key == key && sizeof manifest_300 == length && length <= LEDGER_MANIFEST_BYTES);
#define CHECKED(image, manifest, length, key, release) ledger_check_manifest(image, sizeof image, manifest, length, manifest_key, key, release)
    ledger_manifest_answer checked = CHECKED(image_300, manifest_300, length, key, 300);
    EXPECT(checked.refusal == 0 && checked.place.number == 0);
    EXPECT(CHECKED(image_300, manifest_300, length, key, 301).refusal == LEDGER_WRONG_RELEASE);
    EXPECT(CHECKED(image_300, manifest_300, length, key, 300 + (UINT64_C(1) << 35)).refusal == LEDGER_WRONG_RELEASE);
    EXPECT(CHECKED(image_8, manifest_300, length, key, 301).refusal == LEDGER_WRONG_IMAGE);
    memcpy(changed, manifest_300, length);
    changed[length - 1] ^= 1;
    EXPECT(CHECKED(image_8, changed, length, key, 301).refusal == LEDGER_BAD_SIGNATURE);
    EXPECT(CHECKED(image_8, changed, length - 1, key, 301).refusal == LEDGER_BAD_FORM);
    EXPECT(CHECKED(image_8, changed, length, key - 1, 301).refusal == LEDGER_BAD_FORM);
    EXPECT(CHECKED(image_8, changed, 33, key - 1, 301).refusal == LEDGER_CUT);
    changed[1] = 0;
    EXPECT(CHECKED(image_8, changed, length, key - 1, 301).refusal == LEDGER_BAD_NUMBER);
    checked = CHECKED(longer, changed, length, key - 1, 301);
    EXPECT(checked.refusal == LEDGER_TOO_LONG && checked.place.number == 0);
#undef CHECKED
    EXPECT(ledger_check_manifest(NULL, 0, NULL, 0, NULL, 0, 0).refusal == LEDGER_CUT);
    EXPECT(ledger_check_manifest(NULL, 0, manifest_8, sizeof manifest_8, NULL, 0, 8).refusal == LEDGER_BAD_FORM);
    EXPECT(ledger_check_manifest(NULL, 0, manifest_8, sizeof manifest_8, manifest_key, key, 8).refusal == LEDGER_WRONG_IMAGE);
    return 0;
}

/* And those of the calls on delivered chains. */
static int nothing_delivered(const struct chain *c) {
    const ledger_slot now = {20};
    const uint8_t *genesis = c->genesis, verdicts[2] = {LEDGER_GOOD_VERDICT, LEDGER_GOOD_VERDICT};
    const size_t n = c->genesis_length;
    uint8_t held[2 * LEDGER_BLOCK_BYTES];
    EXPECT(ledger_check(NULL, 0, now, c->bytes, c->length, verdicts, 2).refusal == LEDGER_BAD_GENESIS);
    ledger_check_answer checked = ledger_check(genesis, n, now, NULL, 0, NULL, 0);
    EXPECT(checked.refusal == 0 && checked.count.number == 0 && checked.releases[2] == 40);
    checked = ledger_check(genesis, n, now, c->bytes, c->length, NULL, 0);
    EXPECT(checked.refusal == LEDGER_BAD_VERDICT && checked.place.number == 1);
    EXPECT(ledger_choose(NULL, 0, now, c->bytes, c->first, c->bytes, c->length, verdicts, 2).refusal == LEDGER_BAD_GENESIS);
    EXPECT(ledger_choose(genesis, n, now, NULL, 0, c->bytes, c->length, verdicts, 2).delivered);
    EXPECT(ledger_choose(genesis, n, now, NULL, 0, NULL, 0, NULL, 0).refusal == LEDGER_NOT_LONGER);
    EXPECT(ledger_choose(genesis, n, now, NULL, 0, c->bytes, c->length, NULL, 0).refusal == LEDGER_BAD_VERDICT);
    EXPECT(ledger_adopt(NULL, 0, now, held, sizeof held, 0, c->bytes, c->length, verdicts, 2).refusal == LEDGER_BAD_GENESIS);
    EXPECT(ledger_adopt(genesis, n, now, NULL, 0, 0, c->bytes, c->length, verdicts, 2).refusal == LEDGER_SHORT_BUFFER);
    EXPECT(ledger_adopt(genesis, n, now, NULL, 0, 0, NULL, 0, NULL, 0).refusal == LEDGER_NOT_LONGER);
    EXPECT(ledger_adopt(genesis, n, now, held, sizeof held, 0, c->bytes, c->length, NULL, 0).refusal == LEDGER_BAD_VERDICT);
    return 0;
}

/* And those of the calls on the held chain: NULL and no room are the chain of no blocks. Slot 20 is controller 2's turn. */
static int nothing_held(const struct chain *c) {
    const ledger_slot now = {20};
    const uint8_t *genesis = c->genesis;
    const size_t n = c->genesis_length;
    uint8_t out[LEDGER_BLOCK_TEXT_BYTES];
    ledger_pool pool;
    memset(&pool, 0, sizeof pool);
    ledger_order order = {.display = 2, .expected = 40, .new_release = 41};
    ledger_signature sign;
    memset(&sign, 0x51, sizeof sign);
    EXPECT(ledger_drop_entries(NULL, 0, now, NULL, 0, 0, pool).refusal == LEDGER_BAD_GENESIS);
    EXPECT(ledger_drop_entries(genesis, n, now, NULL, 0, 0, pool).refusal == 0);
    EXPECT(ledger_add_order(NULL, 0, now, NULL, 0, 0, pool, order, 0).refusal == LEDGER_BAD_GENESIS);
    EXPECT(ledger_add_order(genesis, n, now, NULL, 0, 0, pool, order, 0).pool.count == 1);
    EXPECT(ledger_draft(NULL, 0, now, NULL, 0, 0, pool, 2, sign, NULL, 0).refusal == LEDGER_BAD_GENESIS);
    EXPECT(ledger_draft(genesis, n, now, NULL, 0, 0, pool, 2, sign, NULL, 0).refusal == LEDGER_SHORT_BUFFER);
    EXPECT(ledger_draft(genesis, n, now, NULL, 0, 0, pool, 2, sign, out, sizeof out).length == 32 + 1 + 1 + 64);
    EXPECT(ledger_block_text(NULL, 0, now, NULL, 0, 0, pool, 2, sign, NULL, 0).refusal == LEDGER_BAD_GENESIS);
    EXPECT(ledger_block_text(genesis, n, now, NULL, 0, 0, pool, 2, sign, NULL, 0).refusal == LEDGER_SHORT_BUFFER);
    EXPECT(ledger_block_text(genesis, n, now, NULL, 0, 0, pool, 2, sign, out, sizeof out).length == 5 + 32 + 1 + 1 + 64);
    EXPECT(ledger_append(NULL, 0, now, NULL, 0, 0, pool, 2, sign, sign).refusal == LEDGER_BAD_GENESIS);
    EXPECT(ledger_append(genesis, n, now, NULL, 0, 0, pool, 2, sign, sign).refusal == LEDGER_SHORT_BUFFER);
    EXPECT(ledger_report(NULL, 0, now, NULL, 0, 0).refusal == LEDGER_BAD_GENESIS);
    ledger_report_answer report = ledger_report(genesis, n, now, NULL, 0, 0);
    EXPECT(report.refusal == 0 && report.held.number == 0 && report.releases[2] == 40);
    return 0;
}

int main(void) {
    struct chain chain;
    chain_of(&chain);
    const int lines[] = {numbers(),        large_numbers(), digests(),            tables(),        blocks(),
                         large_releases(), a_large_start(), checks(&chain),       adopts(&chain),  issues(&chain),
                         nothing_lent(),   reports(&chain), large_orders(&chain), nothing_delivered(&chain),
                         nothing_held(&chain), depots(&chain), drops(&chain), manifests()};
    return exit_status("every_call.c", lines, sizeof lines / sizeof *lines);
}
