#!/usr/bin/env python3
"""Makes the manifests of host/c/manifests.h with Python's hashlib alone, from RFC 8554 (Algorithms 1 to 6 and Appendix A), and prints that file:
host/third/manifests.py | diff - host/c/manifests.h. Nothing here is taken from the library or from its second implementation."""
import hashlib
import struct

IDENTIFIER = bytes(range(0x10, 0x20))
SEED = bytes(range(0x80, 0xA0))
IMAGES = [(8, 3, b"layout 8"), (300, 4, b"layout 300")]


def sha(*parts):
    return hashlib.sha256(b"".join(parts)).digest()


def u32(number):
    return struct.pack(">I", number)


def chain(leaf, i, value, begin, end):
    for step in range(begin, end):
        value = sha(IDENTIFIER, u32(leaf), struct.pack(">HB", i, step), value)
    return value


def secret(leaf, i):
    return sha(IDENTIFIER, u32(leaf), struct.pack(">HB", i, 0xFF), SEED)


def tree():
    """The nodes by their numbers: the root is 1, the leaves are 32 to 63."""
    nodes = {}
    for leaf in range(32):
        ends = [chain(leaf, i, secret(leaf, i), 0, 255) for i in range(34)]
        key = sha(IDENTIFIER, u32(leaf), b"\x80\x80", *ends)
        nodes[32 + leaf] = sha(IDENTIFIER, u32(32 + leaf), b"\x82\x82", key)
    for node in range(31, 0, -1):
        nodes[node] = sha(IDENTIFIER, u32(node), b"\x83\x83", nodes[2 * node], nodes[2 * node + 1])
    return nodes


def digits(leaf, random, text):
    hashed = sha(IDENTIFIER, u32(leaf), b"\x81\x81", random, text)
    return hashed + struct.pack(">H", sum(255 - byte for byte in hashed))


def signature(nodes, leaf, random, text):
    ends = [chain(leaf, i, secret(leaf, i), 0, digit) for i, digit in enumerate(digits(leaf, random, text))]
    path = [nodes[(32 + leaf) >> level ^ 1] for level in range(5)]
    return b"".join([u32(leaf), u32(4), random, *ends, u32(5), *path])


def number(value):
    groups = b""
    while value > 0x7F:
        groups += bytes([value & 0x7F | 0x80])
        value >>= 7
    return groups + bytes([value])


def manifest(nodes, leaf, release, image):
    text = number(release) + sha(image)
    return text + signature(nodes, leaf, sha(b"randomizer", u32(leaf)), text)


def array(name, data):
    """A C array: in hexadecimal, 24 bytes a line."""
    lines = [", ".join(f"0x{byte:02x}" for byte in data[at : at + 24]) for at in range(0, len(data), 24)]
    return f"static const uint8_t {name}[{len(data)}] = {{\n    " + ",\n    ".join(lines) + "};\n"


def main():
    nodes = tree()
    print("/* Two images, the manifests for them, and the key that these are signed under: made by host/third/manifests.py. */")
    print("#ifndef MANIFESTS_H\n#define MANIFESTS_H\n\n#include <stdint.h>\n")
    print(array("manifest_key", u32(5) + u32(4) + IDENTIFIER + nodes[1]))
    for release, leaf, image in IMAGES:
        print(f'static const uint8_t image_{release}[{len(image)}] = {{{", ".join(map(repr, map(chr, image)))}}};\n')
        print(array(f"manifest_{release}", manifest(nodes, leaf, release, image)))
    print("#endif")


if __name__ == "__main__":
    main()
