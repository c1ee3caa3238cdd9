/* What ledger_host.h declares, each helper on input that it takes and on input that it refuses. It prints the line of the first fact that does
   not hold, and then its exit status is 1. */
#include "example.h"
#include "facts.h"

#define BLOCKS 4
#define FILLER 0xEE

/* A station of n = 6 and t = 1, and a chain that its controllers 1 to 4 have issued in slots 1 to 4. It ends in its first k blocks at
   end[k]. */
static uint8_t chain[BLOCKS * LEDGER_BLOCK_BYTES];
static size_t end[BLOCKS + 1];
static const ledger_slot now = {20};

/* The signer's key, and how many texts were signed with it. */
struct signer {
    uint8_t *key;
    int count;
};

static ledger_signature count_sign(void *context, const uint8_t *text, size_t text_length) {
    struct signer *signer = context;
    signer->count++;
    return made_up_sign(signer->key, text, text_length);
}

/* How many signatures were verified, and under which keys: a bit for each controller. */
struct seen {
    int count;
    unsigned controllers;
};

static bool count_verify(void *context, const uint8_t key[LEDGER_KEY_BYTES], const uint8_t *text, size_t text_length,
                         const uint8_t signature[LEDGER_SIGNATURE_BYTES]) {
    struct seen *seen = context;
    seen->count++;
    seen->controllers |= 1u << key[0];
    return made_up_verify(NULL, key, text, text_length, signature);
}

/* An empty pool, for blocks without orders. */
static ledger_pool empty(void) {
    ledger_pool pool;
    memset(&pool, 0, sizeof pool);
    return pool;
}

/* The block of a slot behind what is held: the new length. It is signed with the key of controller `by`. */
static size_t issued(uint8_t *held, size_t room, size_t length, ledger_slot slot, uint32_t by) {
    struct signer signer = {keys[by - 1], 0};
    uint32_t turn = ledger_turn(ledger_read_genesis(genesis, genesis_length).table, slot);
    ledger_issue_answer answer = ledger_issue(genesis, genesis_length, slot, held, room, length, empty(), turn, count_sign, &signer);
    accepted("issue", answer.refusal, answer.place);
    return answer.length;
}

static void make_station(void) {
    make_genesis(6, 1);
    for (uint32_t k = 0; k < BLOCKS; k++)
        end[k + 1] = issued(chain, sizeof chain, end[k], (ledger_slot){k + 1}, k + 1);
}

/* 01's worked example but for u, which is 64 in a new table: n = 1, t = 0, display 0 at release 7, the others 0, a key of zeros; 99 bytes. */
static int a_genesis(void) {
    uint8_t out[LEDGER_GENESIS_BYTES];
    const uint8_t expected[99] = {1, 0, 64, 7}, key[LEDGER_KEY_BYTES] = {0};
    uint64_t releases[LEDGER_DISPLAYS] = {7};
    memset(out, FILLER, sizeof out);
    ledger_made_genesis made = ledger_write_genesis(1, 0, releases, key, sizeof key, out);
    EXPECT(made.broken == NULL && made.length == 99 && memcmp(out, expected, 99) == 0 && out[99] == FILLER);
    EXPECT(ledger_broken_rule(out, 99) == NULL);
    return 0;
}

/* The longest genesis has LEDGER_GENESIS_BYTES bytes, and is read as what was written. */
static int the_longest_genesis(void) {
    static uint8_t most[LEDGER_CONTROLLERS][LEDGER_KEY_BYTES];
    uint8_t out[LEDGER_GENESIS_BYTES];
    uint64_t releases[LEDGER_DISPLAYS];
    for (int i = 0; i < LEDGER_DISPLAYS; i++)
        releases[i] = LEDGER_LARGEST;
    memset(most, 0x4B, sizeof most);
    ledger_made_genesis made = ledger_write_genesis(31, 10, releases, most[0], sizeof most, out);
    EXPECT(made.broken == NULL && made.length == 3 + 64 * 5 + 31 * 32);
    ledger_genesis_answer read = ledger_read_genesis(out, made.length);
    EXPECT(read.refusal == 0 && read.table.n == 31 && read.table.t == 10 && read.table.u == 64);
    EXPECT(read.table.releases[0] == LEDGER_LARGEST && read.table.releases[63] == LEDGER_LARGEST && out[read.table.keys_at] == 0x4B);
    return 0;
}

/* Four controllers, of whom one may be faulty: a block waits 10 slots. */
static int a_branch_station(void) {
    uint8_t out[LEDGER_GENESIS_BYTES];
    const uint8_t four_keys[4 * LEDGER_KEY_BYTES] = {0};
    const uint64_t releases[LEDGER_DISPLAYS] = {0};
    ledger_made_genesis made = ledger_write_genesis(4, 1, releases, four_keys, sizeof four_keys, out);
    EXPECT(made.broken == NULL && made.length == 3 + 64 + 4 * 32);
    ledger_genesis_answer read = ledger_read_genesis(out, made.length);
    EXPECT(read.refusal == 0 && read.table.n == 4 && read.table.t == 1 && ledger_depth(read.table) == 10);
    return 0;
}

/* Each rule that parts of a genesis can break. Nothing is written then. */
static int no_genesis(void) {
    static const uint8_t any_keys[32 * LEDGER_KEY_BYTES];
    uint8_t out[LEDGER_GENESIS_BYTES];
    const uint64_t releases[LEDGER_DISPLAYS] = {0};
    const struct {
        uint32_t n, t;
        size_t keys_length;
        const char *broken;
    } cases[] = {
        {0, 0, 0, "n is not 1 to 31"},
        {32, 0, 32 * 32, "n is not 1 to 31"},
        {3, 1, 3 * 32, "n is below 3t + 1"},
        {30, 10, 30 * 32, "n is below 3t + 1"},
        {31, 11, 31 * 32, "n is below 3t + 1"},
        {31, 1431655765, 31 * 32, "n is below 3t + 1"}, /* 3t + 1 is 0 in 32 bits */
        {6, 1, 6 * 32 - 1, "the keys are not 32 bytes for each controller"},
        {6, 1, 6 * 32 + 1, "the keys are not 32 bytes for each controller"},
        {6, 1, 0, "the keys are not 32 bytes for each controller"},
    };
    memset(out, FILLER, sizeof out);
    for (size_t i = 0; i < sizeof cases / sizeof *cases; i++) {
        ledger_made_genesis made = ledger_write_genesis(cases[i].n, cases[i].t, releases, any_keys, cases[i].keys_length, out);
        EXPECT(made.broken != NULL && strcmp(made.broken, cases[i].broken) == 0 && made.length == 0 && out[0] == FILLER);
    }
    return 0;
}

/* A release above the largest, at any display. Nothing is written then. */
static int no_large_release(void) {
    const uint8_t key[LEDGER_KEY_BYTES] = {0};
    uint8_t out[LEDGER_GENESIS_BYTES];
    memset(out, FILLER, sizeof out);
    for (int i = 0; i < LEDGER_DISPLAYS; i++) {
        uint64_t releases[LEDGER_DISPLAYS] = {0};
        releases[i] = i % 2 == 0 ? LEDGER_LARGEST + 1 : UINT64_MAX;
        ledger_made_genesis made = ledger_write_genesis(1, 0, releases, key, sizeof key, out);
        EXPECT(made.broken != NULL && strcmp(made.broken, "a release is above 34359738367") == 0 && made.length == 0 && out[0] == FILLER);
    }
    return 0;
}

/* A rule is broken exactly if the proved call refuses: for every cut, one byte more, and every value of each of the first four bytes. */
static int broken_rules(void) {
    uint8_t bytes[LEDGER_GENESIS_BYTES + 1] = {0};
    EXPECT(strcmp(ledger_broken_rule(NULL, 0), "the bytes end before n, t, u and 64 releases do") == 0);
    EXPECT(strcmp(ledger_broken_rule(genesis, genesis_length - 1), "the bytes end before n keys do") == 0);
    memcpy(bytes, genesis, genesis_length);
    EXPECT(strcmp(ledger_broken_rule(bytes, genesis_length + 1), "bytes follow the last key") == 0);
    for (size_t length = 0; length <= genesis_length + 1; length++)
        EXPECT((ledger_broken_rule(bytes, length) == NULL) == (ledger_read_genesis(bytes, length).refusal == 0));
    for (size_t at = 0; at < 4; at++)
        for (int value = 0; value < 256; value++) {
            memcpy(bytes, genesis, genesis_length);
            bytes[at] = (uint8_t)value;
            EXPECT((ledger_broken_rule(bytes, genesis_length) == NULL) == (ledger_read_genesis(bytes, genesis_length).refusal == 0));
        }
    memcpy(bytes, "\x06\x01\x05\x80\x00", 5);
    EXPECT(strcmp(ledger_broken_rule(bytes, genesis_length), "a number is not in its shortest form, or too large") == 0);
    memcpy(bytes, "\x06\x01\x05\xFF\xFF\xFF\xFF\xFF", 8);
    EXPECT(strcmp(ledger_broken_rule(bytes, genesis_length), "a number is not in its shortest form, or too large") == 0);
    return 0;
}

/* Numbers of more than 32 bits: n, t and u that wrap into their ranges break a rule, and a release does not. */
static int wide_numbers(void) {
    const struct {
        const char *head;
        const char *broken;
    } cases[] = {
        {"\x86\x80\x80\x80\x10\x01\x05", "n is not 1 to 31"},
        {"\x06\x81\x80\x80\x80\x10\x05", "n is below 3t + 1"},
        {"\x06\x01\x85\x80\x80\x80\x10", "u is not 1 to 64"},
    };
    uint8_t bytes[LEDGER_GENESIS_BYTES];
    for (size_t i = 0; i < sizeof cases / sizeof *cases; i++) {
        memcpy(bytes, cases[i].head, 7);
        memcpy(bytes + 7, genesis + 3, genesis_length - 3);
        EXPECT(strcmp(ledger_broken_rule(bytes, genesis_length + 4), cases[i].broken) == 0);
        EXPECT(ledger_read_genesis(bytes, genesis_length + 4).refusal == LEDGER_BAD_GENESIS);
    }
    memcpy(bytes, "\x06\x01\x05\xFF\xFF\xFF\xFF\x10", 8);
    memcpy(bytes + 8, genesis + 4, genesis_length - 4);
    EXPECT(ledger_broken_rule(bytes, genesis_length + 4) == NULL);
    EXPECT(ledger_read_genesis(bytes, genesis_length + 4).table.releases[0] == UINT64_C(4563402751));
    return 0;
}

/* The verdicts on a delivered chain where the first `held` bytes of the sample are held. The buffer comes with good ones, which must go. */
static ledger_choose_answer judged(size_t held, const uint8_t *delivered, size_t length, struct seen *seen, uint8_t verdicts[LEDGER_SLOTS]) {
    memset(seen, 0, sizeof *seen);
    memset(verdicts, LEDGER_GOOD_VERDICT, LEDGER_SLOTS);
    return ledger_verdicts(genesis, genesis_length, now, chain, sizeof chain, held, delivered, length, count_verify, seen, verdicts);
}

/* Are the first `good` verdicts good, and all others bad? */
static bool just(const uint8_t verdicts[LEDGER_SLOTS], size_t good) {
    for (size_t i = 0; i < LEDGER_SLOTS; i++)
        if ((verdicts[i] == LEDGER_GOOD_VERDICT) != (i < good))
            return false;
    return true;
}

/* Two signatures for each block that is not held, under the key whose turn its slot is, and none for those that are. */
static int good_verdicts(void) {
    uint8_t verdicts[LEDGER_SLOTS], held[sizeof chain];
    struct seen seen = {0, 0};
    for (size_t k = 0; k < BLOCKS; k++) {
        ledger_choose_answer choice = judged(end[k], chain, end[BLOCKS], &seen, verdicts);
        EXPECT(choice.refusal == 0 && choice.place.number == 0 && choice.delivered && just(verdicts, BLOCKS));
        EXPECT(seen.count == 2 * (int)(BLOCKS - k) && seen.controllers == (0x1Eu & ~((2u << k) - 2)));
        memcpy(held, chain, end[k]);
        ledger_adopt_answer adopted =
            ledger_adopt(genesis, genesis_length, now, held, sizeof held, end[k], chain, end[BLOCKS], verdicts, sizeof verdicts);
        EXPECT(adopted.refusal == 0 && adopted.count.number == BLOCKS);
    }
    return 0;
}

/* What is refused with good verdicts too is not verified, and no verdict is good. */
static int nothing_in_vain(void) {
    uint8_t verdicts[LEDGER_SLOTS];
    struct seen seen = {0, 0};
    ledger_choose_answer choice = judged(end[BLOCKS], chain, end[BLOCKS], &seen, verdicts);
    EXPECT(choice.refusal == LEDGER_NOT_LONGER && !choice.delivered && seen.count == 0 && just(verdicts, 0));
    choice = judged(0, NULL, 0, &seen, verdicts);
    EXPECT(choice.refusal == LEDGER_NOT_LONGER && seen.count == 0 && just(verdicts, 0));
    choice = judged(0, chain, end[BLOCKS] - 1, &seen, verdicts);
    EXPECT(choice.refusal == LEDGER_CUT && choice.place.number == BLOCKS && seen.count == 0 && just(verdicts, 0));
    choice = judged(end[1] - 1, chain, end[BLOCKS], &seen, verdicts);
    EXPECT(choice.refusal == LEDGER_BAD_HELD && choice.place.number == 1 && seen.count == 0 && just(verdicts, 0));
    choice = ledger_verdicts(genesis, genesis_length, (ledger_slot){4}, NULL, 0, 0, chain, end[BLOCKS], count_verify, &seen, verdicts);
    EXPECT(choice.refusal == LEDGER_LATE_STAMP && choice.place.number == 4 && seen.count == 0 && just(verdicts, 0));
    choice = ledger_verdicts(NULL, 0, now, NULL, 0, 0, chain, end[BLOCKS], count_verify, &seen, verdicts);
    EXPECT(choice.refusal == LEDGER_BAD_GENESIS && seen.count == 0 && just(verdicts, 0));
    choice = judged(sizeof chain + 1, chain, end[BLOCKS], &seen, verdicts);
    EXPECT(choice.refusal == LEDGER_BAD_HELD && choice.place.number == 0 && !choice.delivered && seen.count == 0 && just(verdicts, 0));
    return 0;
}

/* Controller 3's block signed by controller 4, behind two good ones: verified up to there, of which the first is held. */
static int a_bad_signature(void) {
    uint8_t verdicts[LEDGER_SLOTS], other[sizeof chain], held[sizeof chain];
    struct seen seen = {0, 0};
    memcpy(other, chain, end[2]);
    size_t length = issued(other, sizeof other, end[2], (ledger_slot){3}, 4);
    length = issued(other, sizeof other, length, (ledger_slot){4}, 4);
    ledger_choose_answer choice = judged(end[1], other, length, &seen, verdicts);
    EXPECT(choice.refusal == LEDGER_BAD_VERDICT && choice.place.number == 3 && !choice.delivered);
    EXPECT(just(verdicts, 2) && seen.count == 2 + 1 && seen.controllers == 0xC);
    memcpy(held, chain, end[1]);
    ledger_adopt_answer adopted = ledger_adopt(genesis, genesis_length, now, held, sizeof held, end[1], other, length, verdicts, sizeof verdicts);
    EXPECT(adopted.refusal == LEDGER_BAD_VERDICT && adopted.place.number == 3);
    return 0;
}

/* Verdicts and adoption in one: the length answered is what to hold from then on, and a refusal leaves the held chain as it was. */
static int adoptions(void) {
    uint8_t held[sizeof chain];
    struct seen seen = {0, 0};
    memcpy(held, chain, end[2]);
    ledger_adopt_answer adopted =
        ledger_adopt_verified(genesis, genesis_length, now, held, sizeof held, end[2], chain, end[2], count_verify, &seen);
    EXPECT(adopted.refusal == LEDGER_NOT_LONGER && adopted.place.number == 0 && adopted.length == end[2] && adopted.count.number == 0);
    adopted = ledger_adopt_verified(genesis, genesis_length, now, held, end[4] - 1, end[2], chain, end[4], count_verify, &seen);
    EXPECT(adopted.refusal == LEDGER_SHORT_BUFFER && adopted.length == end[2] && memcmp(held, chain, end[2]) == 0);
    adopted = ledger_adopt_verified(genesis, genesis_length, now, held, sizeof held, end[2], chain, end[4], count_verify, &seen);
    EXPECT(adopted.refusal == 0 && adopted.length == end[4] && adopted.count.number == 4 && memcmp(held, chain, end[4]) == 0);
    return 0;
}

/* The most blocks that can be delivered: one of each slot from 1 to 255, in slot 256. From slot 128 on a slot has two bytes. */
static int the_longest_chain(void) {
    static uint8_t held[LEDGER_CHAIN_BYTES], longest[LEDGER_CHAIN_BYTES];
    uint8_t verdicts[LEDGER_SLOTS];
    struct seen seen = {0, 0};
    size_t length = 0;
    for (uint32_t slot = 1; slot <= 255; slot++)
        length = issued(longest, sizeof longest, length, (ledger_slot){slot}, (slot - 1) % 6 + 1);
    ledger_choose_answer choice = ledger_verdicts(genesis, genesis_length, (ledger_slot){256}, held, sizeof held, 0, longest, length, count_verify,
                                                  &seen, verdicts);
    EXPECT(choice.refusal == 0 && choice.delivered && just(verdicts, 255) && seen.count == 2 * 255);
    ledger_adopt_answer adopted = ledger_adopt_verified(genesis, genesis_length, (ledger_slot){256}, held, sizeof held, 0, longest, length,
                                                        count_verify, &seen);
    EXPECT(adopted.refusal == 0 && adopted.length == 127 * 162 + 128 * 163 && adopted.count.number == 255);
    return 0;
}

/* Where both chains begin with the same bytes but part within a block, that block is verified too: here they part in the last signature. */
static int part_of_a_block(void) {
    uint8_t verdicts[LEDGER_SLOTS], other[sizeof chain];
    struct seen seen = {0, 0};
    memcpy(other, chain, end[1]);
    other[end[1] - 1] ^= 1;
    size_t length = issued(other, sizeof other, end[1], (ledger_slot){2}, 2);
    ledger_choose_answer choice = judged(end[1], other, length, &seen, verdicts);
    EXPECT(choice.refusal == LEDGER_BAD_VERDICT && choice.place.number == 1 && just(verdicts, 0) && seen.count == 2);
    return 0;
}

/* No chain with a flipped bit is taken, and a stored one with a flipped bit does not verify. */
static int flipped_bits(void) {
    uint8_t verdicts[LEDGER_SLOTS], other[sizeof chain];
    struct seen seen = {0, 0};
    EXPECT(ledger_chain_verifies(genesis, genesis_length, chain, end[BLOCKS], count_verify, &seen));
    for (size_t bit = 0; bit < 8 * end[BLOCKS]; bit++) {
        memcpy(other, chain, end[BLOCKS]);
        other[bit / 8] ^= (uint8_t)(1 << bit % 8);
        ledger_choose_answer choice = judged(end[1], other, end[BLOCKS], &seen, verdicts);
        EXPECT(choice.refusal != LEDGER_NO_REFUSAL && !choice.delivered);
        EXPECT(!ledger_chain_verifies(genesis, genesis_length, other, end[BLOCKS], count_verify, &seen));
    }
    return 0;
}

/* A stored chain: the chain of no blocks verifies, and nothing does under a genesis that is bad or of another station. */
static int stored_chains(void) {
    uint8_t other[LEDGER_GENESIS_BYTES];
    struct seen seen = {0, 0};
    memcpy(other, genesis, genesis_length);
    memset(other + genesis_length - LEDGER_KEY_BYTES * 3, 9, LEDGER_KEY_BYTES);
    EXPECT(ledger_chain_verifies(genesis, genesis_length, NULL, 0, count_verify, &seen));
    EXPECT(!ledger_chain_verifies(NULL, 0, NULL, 0, count_verify, &seen));
    EXPECT(!ledger_chain_verifies(genesis, genesis_length, chain, end[BLOCKS] - 1, count_verify, &seen));
    EXPECT(ledger_chain_verifies(other, genesis_length, chain, end[3], count_verify, &seen));
    EXPECT(!ledger_chain_verifies(other, genesis_length, chain, end[4], count_verify, &seen));
    return 0;
}

/* An issued block is what the three calls make; slot 2 is controller 2's turn. Nothing is signed where the answer is a refusal. */
static int an_issued_block(void) {
    uint8_t held[sizeof chain], text[LEDGER_BLOCK_TEXT_BYTES], expected[sizeof chain];
    struct signer signer = {keys[1], 0};
    const ledger_slot two = {2};
    memcpy(held, chain, end[1]);
    memcpy(expected, chain, end[1]);
    ledger_signature first = made_up_sign(keys[1], (const uint8_t *)"slot\x02", 5);
    ledger_issue_answer answer =
        ledger_block_text(genesis, genesis_length, two, expected, sizeof expected, end[1], empty(), 2, first, text, sizeof text);
    ledger_signature second = made_up_sign(keys[1], text, answer.length);
    answer = ledger_append(genesis, genesis_length, two, expected, sizeof expected, end[1], empty(), 2, first, second);
    ledger_issue_answer issue = ledger_issue(genesis, genesis_length, two, held, end[1] + 162 - 1, end[1], empty(), 2, count_sign, &signer);
    EXPECT(issue.refusal == LEDGER_SHORT_BUFFER && issue.length == end[1] && signer.count == 0);
    issue = ledger_issue(genesis, genesis_length, two, held, end[1] + 162, end[1], empty(), 2, count_sign, &signer);
    EXPECT(issue.refusal == 0 && issue.length == answer.length && memcmp(held, expected, issue.length) == 0 && signer.count == 2);
    issue = ledger_issue(genesis, genesis_length, two, held, sizeof held, issue.length, empty(), 2, count_sign, &signer);
    EXPECT(issue.refusal == LEDGER_BAD_STAMP && signer.count == 2);
    issue = ledger_issue(NULL, 0, (ledger_slot){0}, NULL, 0, 0, empty(), 2, count_sign, &signer);
    EXPECT(issue.refusal == LEDGER_BAD_GENESIS && signer.count == 2);
    return 0;
}

/* The names are the header's, and each number has words of its own. 19, 21 and 22 are no refusals of this version. */
static int names(void) {
#define NAMED(name) {LEDGER_##name, #name}
    const struct {
        uint32_t number;
        const char *name;
    } all[] = {
        NAMED(NO_REFUSAL), NAMED(BAD_GENESIS), NAMED(BAD_CLOCK), NAMED(CUT), NAMED(BAD_NUMBER), NAMED(OUT_OF_RANGE), NAMED(BAD_STAMP),
        NAMED(LATE_STAMP), NAMED(BAD_VERDICT), NAMED(BAD_LINK), NAMED(BAD_ORDER), NAMED(NOT_LONGER), NAMED(WRONG_CONTROLLER),
        NAMED(POOL_FULL), NAMED(BAD_OFFER), NAMED(SHORT_BUFFER), NAMED(TOO_LONG), NAMED(BAD_HELD), NAMED(BAD_POOL), NAMED(DEPOT_FULL),
        NAMED(BAD_FORM), NAMED(BAD_SIGNATURE), NAMED(WRONG_IMAGE), NAMED(WRONG_RELEASE),
    };
#undef NAMED
    const uint32_t none[] = {LEDGER_BAD_POOL + 1, LEDGER_DEPOT_FULL + 1, LEDGER_BAD_FORM - 1, LEDGER_WRONG_RELEASE + 1, UINT32_MAX};
    for (uint32_t i = 0; i < sizeof all / sizeof *all; i++) {
        EXPECT(strcmp(ledger_refusal_name(all[i].number), all[i].name) == 0);
        for (uint32_t j = 0; j < i; j++)
            EXPECT(all[j].number < all[i].number && strcmp(ledger_refusal_words(all[i].number), ledger_refusal_words(all[j].number)) != 0);
    }
    for (uint32_t i = 0; i < sizeof none / sizeof *none; i++)
        EXPECT(strcmp(ledger_refusal_name(none[i]), "UNKNOWN") == 0 && strcmp(ledger_refusal_words(none[i]), "no refusal of this version") == 0);
    return 0;
}

int main(void) {
    make_station();
    const int lines[] = {a_genesis(),       the_longest_genesis(), a_branch_station(), no_genesis(),      no_large_release(), broken_rules(),
                         wide_numbers(),    good_verdicts(),       nothing_in_vain(),  a_bad_signature(), adoptions(),        the_longest_chain(),
                         part_of_a_block(), flipped_bits(),        stored_chains(),    an_issued_block(), names()};
    return exit_status("every_helper.c", lines, sizeof lines / sizeof *lines);
}
