/* All that the archive needs from outside (README, "Linking it"): a host without a C library links with these two. Nothing runs this. */
#include <stddef.h>

void *memcpy(void *to, const void *from, size_t bytes) {
    unsigned char *written = to;
    const unsigned char *read = from;
    while (bytes-- > 0)
        *written++ = *read++;
    return to;
}

void *memset(void *to, int value, size_t bytes) {
    unsigned char *written = to;
    while (bytes-- > 0)
        *written++ = (unsigned char)value;
    return to;
}
