/* What ledger_host.h declares: genesis, verdicts, issuing, and words. */
#include "ledger_host.h"

#include <string.h>

/* The limits of n, t and u, which have at most 35 bits: 3t + 1 is no more than 64 bits hold. */
static const char *broken_limit(uint64_t n, uint64_t t, uint64_t u) {
    if (n < 1 || n > LEDGER_CONTROLLERS)
        return "n is not 1 to 31";
    if (n < 3 * t + 1)
        return "n is below 3t + 1";
    if (u < 1 || u > LEDGER_POOL_SLOTS)
        return "u is not 1 to 64";
    return NULL;
}

static bool releases_fit(const uint64_t releases[LEDGER_DISPLAYS]) {
    for (int i = 0; i < LEDGER_DISPLAYS; i++)
        if (releases[i] > LEDGER_LARGEST)
            return false;
    return true;
}

ledger_made_genesis ledger_write_genesis(uint32_t n, uint32_t t, const uint64_t releases[LEDGER_DISPLAYS], const uint8_t *keys, size_t keys_length,
                                         uint8_t out[LEDGER_GENESIS_BYTES]) {
    const uint32_t head[3] = {n, t, LEDGER_POOL_SLOTS};
    ledger_made_genesis made = {broken_limit(n, t, LEDGER_POOL_SLOTS), 0};
    if (made.broken == NULL && !releases_fit(releases))
        made.broken = "a release is above 34359738367";
    if (made.broken == NULL && keys_length != (size_t)n * LEDGER_KEY_BYTES)
        made.broken = "the keys are not 32 bytes for each controller";
    if (made.broken != NULL)
        return made;
    for (int i = 0; i < 3; i++)
        made.length = ledger_write_number(head[i], made.length, out, LEDGER_GENESIS_BYTES).next;
    for (int i = 0; i < LEDGER_DISPLAYS; i++)
        made.length = ledger_write_number(releases[i], made.length, out, LEDGER_GENESIS_BYTES).next;
    memcpy(out + made.length, keys, keys_length);
    made.length += keys_length;
    return made;
}

const char *ledger_broken_rule(const uint8_t *genesis, size_t genesis_length) {
    uint64_t head[3] = {0, 0, 0};
    size_t at = 0;
    for (int i = 0; i < 3 + LEDGER_DISPLAYS; i++) {
        ledger_number_answer read = ledger_read_number(genesis, genesis_length, at);
        if (read.refusal != LEDGER_NO_REFUSAL)
            return read.refusal == LEDGER_CUT ? "the bytes end before n, t, u and 64 releases do"
                                              : "a number is not in its shortest form, or too large";
        if (i < 3)
            head[i] = read.value;
        at = read.next;
    }
    const char *broken = broken_limit(head[0], head[1], head[2]);
    if (broken != NULL)
        return broken;
    size_t keys_length = (size_t)head[0] * LEDGER_KEY_BYTES;
    if (genesis_length - at < keys_length)
        return "the bytes end before n keys do";
    return genesis_length - at > keys_length ? "bytes follow the last key" : NULL;
}

/* What verifying a chain's blocks needs. */
struct verifier {
    const uint8_t *genesis;
    size_t genesis_length;
    ledger_genesis table;
    ledger_verify verify;
    void *context;
};

/* Do both signatures of a block, read from these bytes, verify under the key whose turn its slot is? */
static bool block_verifies(const struct verifier *by, const ledger_block *block, const uint8_t *bytes, size_t length) {
    uint8_t text[LEDGER_BLOCK_TEXT_BYTES];
    ledger_key_answer key = ledger_find_key(by->genesis, by->genesis_length, ledger_turn(by->table, block->front.slot));
    ledger_write_answer written = ledger_slot_text(block->front.slot, text, sizeof text);
    if (key.refusal != LEDGER_NO_REFUSAL || written.refusal != LEDGER_NO_REFUSAL)
        return false;
    if (!by->verify(by->context, by->genesis + key.at, text, written.next, block->front.slot_signature))
        return false;
    size_t draft_length = length - LEDGER_SIGNATURE_BYTES;
    memcpy(text, LEDGER_BLOCK_LETTERS, LEDGER_BLOCK_LETTERS_BYTES);
    memcpy(text + LEDGER_BLOCK_LETTERS_BYTES, bytes, draft_length);
    return by->verify(by->context, by->genesis + key.at, text, LEDGER_BLOCK_LETTERS_BYTES + draft_length, block->block_signature);
}

/* The first blocks of a chain that verify: how many, and their bytes. */
struct front {
    ledger_block_count count;
    size_t length;
};

/* Goes from the chain's first block to the first that can't be read or does not verify. What ends within the first `known` bytes was verified
   before. */
static struct front verified_front(const struct verifier *by, const uint8_t *chain, size_t length, size_t known) {
    struct front front = {{0}, 0};
    while (front.count.number < LEDGER_SLOTS) {
        ledger_step_answer step = ledger_walk_step(chain, length, front.length);
        if (step.refusal != LEDGER_NO_REFUSAL || step.end)
            break;
        if (step.next > known && !block_verifies(by, &step.block, chain + front.length, step.next - front.length))
            break;
        front.count.number++;
        front.length = step.next;
    }
    return front;
}

/* How many bytes two chains begin with alike. */
static size_t common_bytes(const uint8_t *first, size_t first_length, const uint8_t *second, size_t second_length) {
    size_t at = 0;
    while (at < first_length && at < second_length && first[at] == second[at])
        at++;
    return at;
}

/* The choice if every block verified. A held chain longer than its buffer is no slice to choose from: the report on it says what is refused. */
static ledger_choose_answer choice_if_good(const uint8_t *genesis, size_t genesis_length, ledger_slot clock, const uint8_t *held, size_t held_room,
                                           size_t length, const uint8_t *delivered, size_t delivered_length) {
    uint8_t good[LEDGER_SLOTS];
    memset(good, LEDGER_GOOD_VERDICT, sizeof good);
    if (length <= held_room)
        return ledger_choose(genesis, genesis_length, clock, held, length, delivered, delivered_length, good, sizeof good);
    ledger_report_answer report = ledger_report(genesis, genesis_length, clock, held, held_room, length);
    return (ledger_choose_answer){.refusal = report.refusal, .place = report.place, .delivered = false};
}

ledger_choose_answer ledger_verdicts(const uint8_t *genesis, size_t genesis_length, ledger_slot clock, const uint8_t *held, size_t held_room,
                                     size_t length, const uint8_t *delivered, size_t delivered_length, ledger_verify verify, void *context,
                                     uint8_t verdicts[LEDGER_SLOTS]) {
    memset(verdicts, 0, LEDGER_SLOTS);
    ledger_choose_answer choice = choice_if_good(genesis, genesis_length, clock, held, held_room, length, delivered, delivered_length);
    if (choice.refusal != LEDGER_NO_REFUSAL)
        return choice;
    const struct verifier by = {genesis, genesis_length, ledger_read_genesis(genesis, genesis_length).table, verify, context};
    struct front front = verified_front(&by, delivered, delivered_length, common_bytes(held, length, delivered, delivered_length));
    memset(verdicts, LEDGER_GOOD_VERDICT, front.count.number);
    if (front.length < delivered_length) {
        choice.refusal = LEDGER_BAD_VERDICT;
        choice.place.number = front.count.number + 1;
        choice.delivered = false;
    }
    return choice;
}

ledger_adopt_answer ledger_adopt_verified(const uint8_t *genesis, size_t genesis_length, ledger_slot clock, uint8_t *held, size_t held_room,
                                          size_t length, const uint8_t *delivered, size_t delivered_length, ledger_verify verify,
                                          void *context) {
    uint8_t verdicts[LEDGER_SLOTS];
    ledger_choose_answer choice =
        ledger_verdicts(genesis, genesis_length, clock, held, held_room, length, delivered, delivered_length, verify, context, verdicts);
    if (choice.refusal == LEDGER_NO_REFUSAL)
        return ledger_adopt(genesis, genesis_length, clock, held, held_room, length, delivered, delivered_length, verdicts, sizeof verdicts);
    return (ledger_adopt_answer){.refusal = choice.refusal, .place = choice.place, .length = length};
}

bool ledger_chain_verifies(const uint8_t *genesis, size_t genesis_length, const uint8_t *chain, size_t chain_length, ledger_verify verify,
                           void *context) {
    ledger_genesis_answer read = ledger_read_genesis(genesis, genesis_length);
    const struct verifier by = {genesis, genesis_length, read.table, verify, context};
    return read.refusal == LEDGER_NO_REFUSAL && verified_front(&by, chain, chain_length, 0).length == chain_length;
}

ledger_issue_answer ledger_issue(const uint8_t *genesis, size_t genesis_length, ledger_slot clock, uint8_t *held, size_t held_room, size_t length,
                                 ledger_pool pool, uint32_t controller, ledger_sign sign, void *context) {
    uint8_t text[LEDGER_BLOCK_TEXT_BYTES];
    ledger_signature slot_signature = {{0}}, block_signature = {{0}};
    ledger_issue_answer drafted =
        ledger_draft(genesis, genesis_length, clock, held, held_room, length, pool, controller, slot_signature, text, sizeof text);
    if (drafted.refusal == LEDGER_NO_REFUSAL && held_room - length >= drafted.length + LEDGER_SIGNATURE_BYTES) {
        slot_signature = sign(context, text, ledger_slot_text(clock, text, sizeof text).next);
        ledger_issue_answer written =
            ledger_block_text(genesis, genesis_length, clock, held, held_room, length, pool, controller, slot_signature, text, sizeof text);
        block_signature = sign(context, text, written.length);
    }
    /* Where nothing was signed this call refuses for the same reason, and appends nothing. */
    return ledger_append(genesis, genesis_length, clock, held, held_room, length, pool, controller, slot_signature, block_signature);
}

/* By number. Where there is no name, no call of this version answers the number. */
static const struct {
    const char *name;
    const char *words;
} refusals[] = {
    {"NO_REFUSAL", "no refusal"},
    {"BAD_GENESIS", "the genesis table breaks a rule"},
    {"BAD_CLOCK", "the slot is not 1 to 256"},
    {"CUT", "a block, a number or a manifest is cut"},
    {"BAD_NUMBER", "a number is badly written: not in its shortest form, or too large"},
    {"OUT_OF_RANGE", "a count, a display, a depot, a release or a slot is out of its range"},
    {"BAD_STAMP", "a block's slot is not above the one before it; to be issued: the held chain already has a block of this slot"},
    {"LATE_STAMP", "a delivered block's slot is not below the clock's"},
    {"BAD_VERDICT", "a block's signatures do not verify, or nobody said whether they do"},
    {"BAD_LINK", "a block does not belong behind the one before it"},
    {"BAD_ORDER", "a block has an order that is not valid there"},
    {"NOT_LONGER", "the delivered chain does not have more blocks than the held one"},
    {"WRONG_CONTROLLER", "the controller is unknown, or it is not its turn"},
    {"POOL_FULL", "the order pool is full"},
    {"BAD_OFFER", "the order is not valid where it would stand"},
    {"SHORT_BUFFER", "the lent buffer is too short"},
    {"TOO_LONG", "a delivered chain has more than 64,256 bytes, or what is to be digested more than 65,536"},
    {"BAD_HELD", "the held chain is bad: put its length to 0 and take the next whole chain"},
    {"BAD_POOL", "the order pool is bad: empty it"},
    [LEDGER_DEPOT_FULL] = {"DEPOT_FULL", "the depot has 16 entries in the order pool"},
    [LEDGER_BAD_FORM] = {"BAD_FORM", "a manifest's signature, or the key, has a wrong length or is of another type"},
    [LEDGER_BAD_SIGNATURE] = {"BAD_SIGNATURE", "a manifest's signature does not verify under the key"},
    [LEDGER_WRONG_IMAGE] = {"WRONG_IMAGE", "the image is not the one that the manifest is for"},
    [LEDGER_WRONG_RELEASE] = {"WRONG_RELEASE", "the manifest's release is not the settled one"},
};

/* Some numbers below the last are no refusal of this version: they have no name. */
static bool known(uint32_t refusal) { return refusal < sizeof refusals / sizeof *refusals && refusals[refusal].name != NULL; }

const char *ledger_refusal_name(uint32_t refusal) { return known(refusal) ? refusals[refusal].name : "UNKNOWN"; }

const char *ledger_refusal_words(uint32_t refusal) { return known(refusal) ? refusals[refusal].words : "no refusal of this version"; }
