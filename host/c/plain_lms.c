/* The check of a boot manifest as a C programmer writes it down from RFC 8554 and the rules: what the benchmarks compare with. NAME is the function's
   name, and SHA256 that of the digest (plain_sha256.c). It gives the number of the refusal. */
#include <stddef.h>
#include <stdint.h>
#include <string.h>

void SHA256(const uint8_t *message, size_t length, uint8_t digest[32]);

enum { HASH = 32, DIGITS = 34, HEIGHT = 5, PREFIX = 22, KEY = 56, SIGNATURE = 1292 };

static uint32_t word(const uint8_t *bytes) {
    return (uint32_t)bytes[0] << 24 | (uint32_t)bytes[1] << 16 | (uint32_t)bytes[2] << 8 | bytes[3];
}

/* Every hash begins with the key's identifier, a number of four bytes and one of two. */
static void begin(uint8_t *message, const uint8_t *key, uint32_t number, unsigned kind) {
    memcpy(message, key + 8, 16);
    for (int i = 0; i < 4; i++)
        message[16 + i] = (uint8_t)(number >> (24 - 8 * i));
    message[20] = (uint8_t)(kind >> 8);
    message[21] = (uint8_t)kind;
}

/* The end of a chain, from the value that the signature has for a digit. */
static void chain(const uint8_t *key, uint32_t leaf, unsigned i, unsigned digit, const uint8_t *value, uint8_t end[HASH]) {
    uint8_t message[PREFIX + 1 + HASH];
    begin(message, key, leaf, i);
    memcpy(end, value, HASH);
    for (unsigned step = digit; step < 255; step++) {
        message[PREFIX] = (uint8_t)step;
        memcpy(message + PREFIX + 1, end, HASH);
        SHA256(message, sizeof message, end);
    }
}

/* The digits of the hash of what is signed, and of its checksum. */
static void digits_of(const uint8_t *key, const uint8_t *text, size_t length, const uint8_t *signature, uint8_t digits[DIGITS]) {
    uint8_t message[PREFIX + HASH + 37];
    unsigned sum = 0;
    begin(message, key, word(signature), 0x8181);
    memcpy(message + PREFIX, signature + 8, HASH);
    memcpy(message + PREFIX + HASH, text, length);
    SHA256(message, PREFIX + HASH + length, digits);
    for (int i = 0; i < HASH; i++)
        sum += 255u - digits[i];
    digits[32] = (uint8_t)(sum >> 8);
    digits[33] = (uint8_t)sum;
}

/* The hash of the leaf's key, from the ends of its chains. */
static void leaf_of(const uint8_t *key, const uint8_t *signature, const uint8_t digits[DIGITS], uint8_t value[HASH]) {
    uint8_t message[PREFIX + DIGITS * HASH];
    uint32_t leaf = word(signature);
    begin(message, key, leaf, 0x8080);
    for (unsigned i = 0; i < DIGITS; i++)
        chain(key, leaf, i, digits[i], signature + 40 + HASH * i, message + PREFIX + HASH * i);
    SHA256(message, sizeof message, value);
    begin(message, key, 32 + leaf, 0x8282);
    memcpy(message + PREFIX, value, HASH);
    SHA256(message, PREFIX + HASH, value);
}

/* From a leaf up to the root, beside the nodes of the path. */
static void climb(const uint8_t *key, uint32_t node, const uint8_t *path, uint8_t value[HASH]) {
    uint8_t message[PREFIX + 2 * HASH];
    for (int i = 0; i < HEIGHT; i++, node /= 2, path += HASH) {
        begin(message, key, node / 2, 0x8383);
        memcpy(message + PREFIX, node % 2 ? path : value, HASH);
        memcpy(message + PREFIX + HASH, node % 2 ? value : path, HASH);
        SHA256(message, sizeof message, value);
    }
}

static uint32_t verified(const uint8_t *text, size_t length, const uint8_t *signature, size_t signature_length, const uint8_t *key,
                         size_t key_length) {
    uint8_t digits[DIGITS], value[HASH];
    if (signature_length != SIGNATURE || key_length != KEY || word(key) != 5 || word(key + 4) != 4 || word(signature + 4) != 4 ||
        word(signature + 1128) != 5)
        return 23;
    if (word(signature) >= 32)
        return 24;
    digits_of(key, text, length, signature, digits);
    leaf_of(key, signature, digits, value);
    climb(key, 32 + word(signature), signature + 1132, value);
    return memcmp(value, key + 24, HASH) == 0 ? 0 : 24;
}

uint32_t NAME(const uint8_t *image, size_t image_length, const uint8_t *manifest, size_t manifest_length, const uint8_t *key, size_t key_length,
              uint64_t settled) {
    uint8_t digest[HASH];
    uint64_t release = 0;
    size_t at = 0;
    uint32_t refusal;
    if (image_length > 65536)
        return 16;
    do {
        if (at == 5)
            return 4;
        if (at == manifest_length)
            return 3;
        release |= (uint64_t)(manifest[at] & 0x7F) << 7 * at;
    } while (manifest[at++] & 0x80);
    if (at > 1 && manifest[at - 1] == 0)
        return 4;
    if (manifest_length < at + HASH)
        return 3;
    refusal = verified(manifest, at + HASH, manifest + at + HASH, manifest_length - at - HASH, key, key_length);
    if (refusal != 0)
        return refusal;
    SHA256(image, image_length, digest);
    if (memcmp(digest, manifest + at, HASH) != 0)
        return 25;
    return release == settled ? 0 : 26;
}
