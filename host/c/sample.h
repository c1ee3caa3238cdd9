/* A table, a block and a chain that the calls accept, for what calls each of them once. */
#ifndef SAMPLE_H
#define SAMPLE_H

#include "ledger_host.h"

#include <string.h>

/* A genesis of n = 6 and t = 1, with display 2 at release 40: its length. */
static inline size_t genesis_of(uint8_t out[LEDGER_GENESIS_BYTES]) {
    const uint64_t releases[LEDGER_DISPLAYS] = {[2] = 40};
    uint8_t keys[6][LEDGER_KEY_BYTES];
    for (uint8_t i = 0; i < 6; i++)
        memset(keys[i], i + 1, LEDGER_KEY_BYTES);
    return ledger_write_genesis(6, 1, releases, keys[0], sizeof keys, out).length;
}

/* A block at a slot that takes display 2 one release on, with the digest of the bytes before it as its link. */
static inline ledger_block block_after(const uint8_t *before, size_t length, uint32_t slot, uint64_t release) {
    ledger_block block;
    memset(&block, 0, sizeof block);
    memcpy(block.front.link, ledger_digest(before, length).digest, LEDGER_LINK_BYTES);
    block.front.orders.count = 1;
    block.front.orders.list[0] = (ledger_order){.display = 2, .expected = release, .new_release = release + 1};
    block.front.slot.number = slot;
    memset(block.front.slot_signature, 0x51, LEDGER_SIGNATURE_BYTES);
    memset(block.block_signature, 0xB1, LEDGER_SIGNATURE_BYTES);
    return block;
}

/* What the calls on chains share: a good chain of two blocks, the first of which takes `first` bytes. */
struct chain {
    uint8_t genesis[LEDGER_GENESIS_BYTES];
    size_t genesis_length;
    uint8_t bytes[2 * LEDGER_BLOCK_BYTES];
    size_t first;
    size_t length;
};

static inline void chain_of(struct chain *c) {
    c->genesis_length = genesis_of(c->genesis);
    ledger_block block = block_after(c->genesis, c->genesis_length, 1, 40);
    c->first = ledger_write_block(block, 0, c->bytes, sizeof c->bytes).next;
    block = block_after(c->bytes, c->first, 3, 41);
    c->length = ledger_write_block(block, c->first, c->bytes, sizeof c->bytes).next;
}

#endif
