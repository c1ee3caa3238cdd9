/* What the examples share: a station, signing that is made up, in the place of the host's own, and a stop where something is not as it should be. */
#ifndef EXAMPLE_H
#define EXAMPLE_H

#include "ledger_host.h"

#include <inttypes.h>
#include <stdio.h>
#include <stdlib.h>
#include <string.h>

/* Stops where a call has refused that must not. */
static inline void accepted(const char *call, uint32_t refusal, ledger_block_count place) {
    if (refusal == LEDGER_NO_REFUSAL)
        return;
    printf("%s: refused %" PRIu32 " %" PRIu32 ", %s\n", call, refusal, place.number, ledger_refusal_words(refusal));
    exit(EXIT_FAILURE);
}

/* Stops where something does not hold that must. */
static inline void expect(const char *what, bool holds) {
    if (holds)
        return;
    printf("%s: not so\n", what);
    exit(EXIT_FAILURE);
}

#define MOST_CONTROLLERS 6
#define DISPLAY 4
#define DEPOT 0

/* The station's table, the same bytes on every controller, and the controllers' keys. */
static uint8_t genesis[LEDGER_GENESIS_BYTES];
static size_t genesis_length;
static uint8_t keys[MOST_CONTROLLERS][LEDGER_KEY_BYTES];

/* A table in which display 4 starts at release 7. The keys are made up. */
static inline void make_genesis(uint32_t n, uint32_t t) {
    const uint64_t releases[LEDGER_DISPLAYS] = {[DISPLAY] = 7};
    for (uint8_t i = 0; i < MOST_CONTROLLERS; i++)
        memset(keys[i], i + 1, LEDGER_KEY_BYTES);
    ledger_made_genesis made = ledger_write_genesis(n, t, releases, keys[0], n * LEDGER_KEY_BYTES, genesis);
    expect(made.broken == NULL ? "a genesis" : made.broken, made.broken == NULL);
    genesis_length = made.length;
}

/* Stands in for the host's signing: the digest of key and text, twice. Nobody may sign like this: the key is in the genesis. */
static inline ledger_signature made_up_sign(void *key, const uint8_t *text, size_t text_length) {
    uint8_t message[LEDGER_KEY_BYTES + LEDGER_BLOCK_TEXT_BYTES];
    memcpy(message, key, LEDGER_KEY_BYTES);
    memcpy(message + LEDGER_KEY_BYTES, text, text_length);
    ledger_digest_answer digested = ledger_digest(message, LEDGER_KEY_BYTES + text_length);
    accepted("digest", digested.refusal, digested.place);
    ledger_signature signature;
    memcpy(signature.bytes, digested.digest, LEDGER_DIGEST_BYTES);
    memcpy(signature.bytes + LEDGER_DIGEST_BYTES, digested.digest, LEDGER_DIGEST_BYTES);
    return signature;
}

/* And for its verifying. It needs no context. */
static inline bool made_up_verify(void *context, const uint8_t key[LEDGER_KEY_BYTES], const uint8_t *text, size_t text_length,
                                  const uint8_t signature[LEDGER_SIGNATURE_BYTES]) {
    uint8_t copy[LEDGER_KEY_BYTES];
    (void)context;
    memcpy(copy, key, LEDGER_KEY_BYTES);
    return memcmp(made_up_sign(copy, text, text_length).bytes, signature, LEDGER_SIGNATURE_BYTES) == 0;
}

#endif
