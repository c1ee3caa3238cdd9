/*
 * What every host writes around the calls of include/ledger.h: making a genesis, verdicts on a delivered chain, issuing, and words for refusals.
 * Compile ledger_host.c into the host.
 *
 * All of it is outside the proofs, and tested (every_helper.c). It goes through the calls, allocates nothing, has no state, and needs string.h and
 * nothing else. Slices and buffers are as in ledger.h; NULL is allowed with length 0.
 */
#ifndef LEDGER_HOST_H
#define LEDGER_HOST_H

#include "ledger.h"

#ifdef __cplusplus
extern "C" {
#endif

/* The most that the helpers take of the stack, in bytes, compiled by gcc 12 at any level. A callback is called with at most LEDGER_STACK_CALLBACK
   bytes of it in use; what it takes itself comes on top of these. */
#define LEDGER_STACK_VERDICTS (LEDGER_STACK_CHOOSE + 2816)
#define LEDGER_STACK_ADOPT_VERIFIED (LEDGER_STACK_ADOPT + 2816)
#define LEDGER_STACK_CHAIN_VERIFIES (LEDGER_STACK_FIND_KEY + 2304)
#define LEDGER_STACK_ISSUE (LEDGER_STACK_APPEND + 2816)
#define LEDGER_STACK_CALLBACK 2816

/* Whether a signature verifies over a text under a key. This is the host's own, the same on all controllers. `context` is what the caller gave. */
typedef bool (*ledger_verify)(void *context, const uint8_t key[LEDGER_KEY_BYTES], const uint8_t *text, size_t text_length,
                              const uint8_t signature[LEDGER_SIGNATURE_BYTES]);

/* The controller's signature over a text. This is the host's own. */
typedef ledger_signature (*ledger_sign)(void *context, const uint8_t *text, size_t text_length);

typedef struct {
    const char *broken; /* the rule that is broken, in words; NULL where none is */
    size_t length;      /* of the genesis; 0 where a rule is broken */
} ledger_made_genesis;

/* Writes the genesis of n controllers, of whom t may be faulty. Its u, which has no effect, is LEDGER_POOL_SLOTS. The keys are 32 bytes for each
   controller, end to end, from controller 1 on. Where a rule is broken nothing is written. */
ledger_made_genesis ledger_write_genesis(uint32_t n, uint32_t t, const uint64_t releases[LEDGER_DISPLAYS], const uint8_t *keys, size_t keys_length,
                                         uint8_t out[LEDGER_GENESIS_BYTES]);

/* The rule that genesis bytes break, in words: what stands behind LEDGER_BAD_GENESIS. NULL exactly if ledger_read_genesis accepts them. */
const char *ledger_broken_rule(const uint8_t *genesis, size_t genesis_length);

/* The verdicts on a delivered chain, for the ledger_adopt that follows with the same arguments and all LEDGER_SLOTS verdicts. They are good for
   the blocks that verify, up to the first that does not, and bad from there on. The answer is the choice between the two chains.

   Nothing is verified in vain. A chain that would be refused with good verdicts too is refused as it is then, and all verdicts are bad. Blocks
   with which the held chain begins as well are good: they were verified before they were held. So a refusal may have another number than if
   every block had been verified; whether there is one is the same. */
ledger_choose_answer ledger_verdicts(const uint8_t *genesis, size_t genesis_length, ledger_slot clock, const uint8_t *held, size_t held_room,
                                     size_t length, const uint8_t *delivered, size_t delivered_length, ledger_verify verify, void *context,
                                     uint8_t verdicts[LEDGER_SLOTS]);

/* ledger_verdicts, and ledger_adopt with them. The length answered is what to hold from then on, on a refusal the old one. */
ledger_adopt_answer ledger_adopt_verified(const uint8_t *genesis, size_t genesis_length, ledger_slot clock, uint8_t *held, size_t held_room,
                                          size_t length, const uint8_t *delivered, size_t delivered_length, ledger_verify verify,
                                          void *context);

/* Whether a chain can be read to its end and both signatures of every block verify. For a stored chain at boot, after ledger_report on it, which sees
   whether the length can be and the blocks fit one another: no link covers the last block, so damage there is seen by its signatures alone. */
bool ledger_chain_verifies(const uint8_t *genesis, size_t genesis_length, const uint8_t *chain, size_t chain_length, ledger_verify verify,
                           void *context);

/* Signs the two texts and appends the block: ledger_slot_text, ledger_block_text and ledger_append. It answers as ledger_append does, and signs
   nothing where that refuses. Before the call see that no block was signed for this slot. After it store the block and the slot, and then send
   the chain. */
ledger_issue_answer ledger_issue(const uint8_t *genesis, size_t genesis_length, ledger_slot clock, uint8_t *held, size_t held_room, size_t length,
                                 ledger_pool pool, uint32_t controller, ledger_sign sign, void *context);

/* The name of a refusal without LEDGER_, NO_REFUSAL for 0, and UNKNOWN for a number that is none. */
const char *ledger_refusal_name(uint32_t refusal);

/* And what it means, in words for a log. */
const char *ledger_refusal_words(uint32_t refusal);

#ifdef __cplusplus
}
#endif

#endif
