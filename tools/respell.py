#!/usr/bin/env python3
"""Brings the repository's own definitions and lemmas to snake case, everywhere they are named.

Run once, at the top, after the kit's port script: the names that specs/ and proofs/ declare in another spelling (a hump or a hyphen) get underscores.
Names of src/, of libraries and of goals keep their spelling. It stops where two names would fall together.
"""
import glob
import os
import re
import sys

WORD = r"[A-Za-z][A-Za-z0-9_'₀-₉]*(?:-[A-Za-z0-9_'₀-₉]+)*"
TOKEN = re.compile(r"(?<![A-Za-z0-9_'₀-₉·\-◌])" + WORD + r"(?![A-Za-z0-9_'₀-₉→◌])")
DECLARED = re.compile(r"^\s*(?:(?:pub|abbrev|unfoldable|axiom)\s+)*((?:" + WORD + r"\s+)*" + WORD + r")\s*:\s")
GOAL = re.compile(r":\s*(?:tie|goal)\.")
IMPORT = re.compile(r"^\s*(?:ghost |pub )*use\s+([^\s{]+)\.\{([^}]*)\}", re.S | re.M)


# Where a lemma would fall together with the definition that it is about, and where a definition would take the name of a parameter.
BY_HAND = {
    name: snake + "_law"
    for name, snake in {
        "behind-link": "behind_link",
        "block-length": "block_length",
        "block-place": "block_place",
        "blocks-from": "blocks_from",
        "clock-fits": "clock_fits",
        "in-range": "in_range",
        "issue-answer": "issue_answer",
        "last-stamp": "last_stamp",
        "number-in": "number_in",
        "order-bytes": "order_bytes",
        "slot-text": "slot_text",
        "two-numbers": "two_numbers",
    }.items()
}
BY_HAND["keyHash"] = "key_hash_of"
# Fields of two records may have one name.
FIELDS = {"blockSignature", "slotSignature", "block-signature", "slot-signature"}
# The kit's script turned a lemma to a definition's name, and a file has the name of a module that the kit now makes.
IN_CRATES = [("issue", "front_fits", "front_fits_law")]
MOVED = [("crates/laws/specs/Contracts.antt", "crates/laws/specs/NoChoice.antt")]


def snake(name):
    if name in BY_HAND:
        return BY_HAND[name]
    name = re.sub(r"([a-z0-9₀-₉])([A-Z])", lambda m: m[1] + "_" + m[2].lower(), name)
    return name.replace("-", "_")


def own_files():
    for pattern in ("specs/**/*.antt", "proofs/**/*.antt"):
        yield from glob.glob("crates/*/" + pattern, recursive=True)


def main():
    crates = {line.split(":")[0].split()[0] for line in open("crates.txt") if line.strip()}
    declared, libraries = set(), set()
    for path in own_files():
        text = open(path).read()
        for line in text.split("\n"):
            match = DECLARED.match(line)
            if match and not line.lstrip().startswith("--") and not GOAL.search(line):
                declared |= set(match[1].split())
        for module, names in IMPORT.findall(text):
            parts = module.split(".")
            if parts[0] != "Rattle" or parts[1] not in crates or "Statement" in parts or "Tie" in parts:
                libraries |= {n.split(" as ")[0].strip() for n in names.split(",")}
    renamed = {}
    for name in sorted(declared - libraries):
        if name[0].islower() and snake(name) != name:
            renamed[name] = snake(name)
    bad = {n for n, new in renamed.items() if new in declared or new in libraries}
    seen = {}
    for name, new in renamed.items():
        seen.setdefault(new, []).append(name)
    bad |= {n for names in seen.values() if len(names) > 1 for n in names}
    bad -= FIELDS | {"frontFits"}
    if "--list" in sys.argv:
        for name, new in renamed.items():
            print(name, new, "FALLS TOGETHER" if name in bad else "")
        return
    if bad:
        sys.exit("fall together: " + ", ".join(sorted(bad)))

    for crate, old, new in IN_CRATES:
        for path in glob.glob(f"crates/{crate}/proofs/**/*.antt", recursive=True):
            text = open(path).read()
            open(path, "w").write(re.sub(rf"(?<![\w.'-]){old}(?![\w'-])", new, text.replace(f".{{{old}}}", f".{{{new}}}")))
    for old, new in MOVED:
        os.rename(old, new)
        before, after = (p.split("/")[-1].removesuffix(".antt") for p in (old, new))
        for path in glob.glob("crates/*/**/*.antt", recursive=True):
            text = open(path).read()
            open(path, "w").write(re.sub(rf"(\bspecs\.|^pub mod ){before}\b", rf"\g<1>{after}", text, flags=re.M))

    def turn(text):
        return TOKEN.sub(lambda m: renamed.get(m[0], m[0]), text)

    for path in list(own_files()) + glob.glob("crates/*/src/**/*.rt", recursive=True) + glob.glob("crates/*/must-fail/*.edit"):
        text = open(path).read()
        new = turn(text)
        if new != text:
            open(path, "w").write(new)
    for path in ["README.md"] + glob.glob("docs/**/*.md", recursive=True) + glob.glob("crates/*/*.md"):
        text = open(path).read()
        new = re.sub(r"`[^`\n]*`", lambda m: turn(m[0]), text)
        if new != text:
            open(path, "w").write(new)


main()
