//! The programs in C that go through `include/ledger.h`: each call (`host/c/every_call.c`), the helpers (`every_helper.c`), what a call takes of
//! the stack (`stack.c`), what the archive needs from outside (`bare.c`), and the examples `small_run.c`, `recovery.c` and `boot_check.c`. What the
//! examples print is worked out here by hand from 01 and 02.
use std::path::Path;
use std::process::Command;

use trials::programs::{compiler, program, root};

/// n = 2 and t = 0: the turns alternate from controller 1 on, and a block is settled exactly if its slot + 1 < now. A block has 32 + 1 + 1 + 64 + 64
/// = 162 bytes and those of its orders: 3 for display 4 from 7 to 8, and 4 from 8 to 300, which takes two bytes. In slot 3 the order 7 to 8 no
/// longer counts, since release 8 is settled, so the third block has none.
const ACCOUNT: &str = "\
slot 1: controller 1 pools display 4 from 7 to 8
slot 1: controller 1 issues a block of 165 bytes and holds 165 bytes
slot 2: controller 2 adopts 165 bytes and holds 1 blocks
slot 2: controller 2 pools display 4 from 8 to 300
slot 2: controller 2 issues a block of 166 bytes and holds 331 bytes
slot 3: controller 1 adopts 331 bytes and holds 2 blocks
slot 3: controller 1 keeps what it holds: refused 11 0, the delivered chain does not have more blocks than the held one
slot 3: controller 1 reports 2 held, 1 settled, display 4 is to boot 8
slot 3: controller 2 reports 2 held, 1 settled, display 4 is to boot 8
slot 3: controller 1 issues a block of 162 bytes and holds 493 bytes
slot 4: controller 2 adopts 493 bytes and holds 3 blocks
slot 4: controller 1 reports 3 held, 2 settled, display 4 is to boot 300
slot 4: controller 2 reports 3 held, 2 settled, display 4 is to boot 300
";

/// n = 6 and t = 1. The others' blocks have 165 bytes in slot 1, with an order of 3 bytes, and 162 after it. The damaged byte is the first one of the
/// held chain, which is block 1's link. In slot 6, its turn, controller 6 puts an order of 3 bytes behind 165 + 4 * 162 = 813 bytes. The damaged last
/// byte is its own block's signature, which no link covers, so the report sees 6 good blocks. In slot 7 the others put 162 bytes behind its 978.
const RECOVERY: &str = "\
slot 2: adopts 165 bytes and holds 1 blocks
slot 2: report on 1 blocks, good
slot 2: a byte of its chain is damaged
slot 3: adopt: refused 17 1, BAD_HELD
slot 3: adopt: refused 17 1, BAD_HELD
slot 3: report: refused 17 1, BAD_HELD
slot 3: puts its length to 0
slot 3: adopts 327 bytes and holds 2 blocks
slot 3: report on 2 blocks, not to be used
slot 4: adopts 489 bytes and holds 3 blocks
slot 4: its pool is damaged
slot 4: drop: refused 18 0, BAD_POOL
slot 4: add: refused 18 0, BAD_POOL
slot 4: empties its pool
slot 4: pools an order
slot 5: adopts 651 bytes and holds 4 blocks
slot 6: adopts 813 bytes and holds 5 blocks
slot 6: issues and stores a block
slot 6: sends 978 bytes
slot 6: restarts
slot 6: sends 978 bytes
slot 6: has signed for this slot, and signs nothing
slot 6: the last byte of its chain is damaged
slot 6: report on 6 blocks, not to be used
slot 6: restarts
slot 6: puts its length to 0
slot 6: has signed for this slot, and signs nothing
slot 8: adopts 1140 bytes and holds 7 blocks
";

/// n = 1 and t = 0: a block is settled exactly if its slot + 1 < now. So in slot 3 the first block is, which takes display 4 to release 8, and in
/// slot 4 the second too. A manifest for another release than the settled one is 26, be it a later or an earlier one. Half a manifest has its number
/// and digest, but a signature that is too short.
const BOOT_CHECK: &str = "\
slot 3: display 4 is to boot 8
release 8: starts
release 300: refused 26 0, the manifest's release is not the settled one
slot 4: display 4 is to boot 300
release 8: refused 26 0, the manifest's release is not the settled one
release 300: starts
a damaged image: refused 25 0, the image is not the one that the manifest is for
a damaged manifest: refused 24 0, a manifest's signature does not verify under the key
half a manifest: refused 23 0, a manifest's signature, or the key, has a wrong length or is of another type
no manifest: refused 3 0, a block, a number or a manifest is cut
";

/// Builds a program of `host/c` with the header, the helpers and the archive, as its reader would, and gives what it prints and whether it succeeded.
fn printed(name: &str) -> (String, bool) {
    let built_program = Path::new(env!("CARGO_TARGET_TMPDIR")).join(name);
    let built = compiler()
        .args(["-std=c99", "-Wall", "-Wextra", "-Werror", "-Wpedantic"])
        .args(["-O1", "-pthread", "-I"])
        .arg(root().join("include"))
        .arg(root().join("host/c").join(name).with_extension("c"))
        .arg(root().join("host/c/ledger_host.c"))
        .arg(root().join("target/staticlib/libledger.a"))
        .arg("-o")
        .arg(&built_program)
        .status()
        .expect("a compiler for C");
    assert!(built.success());
    let ran = program(&built_program).output().unwrap();
    (String::from_utf8(ran.stdout).unwrap(), ran.status.success())
}

#[test]
fn the_account_of_the_c_example() {
    assert_eq!(printed("small_run"), (ACCOUNT.into(), true));
}

#[test]
fn the_account_of_a_recovery() {
    assert_eq!(printed("recovery"), (RECOVERY.into(), true));
}

#[test]
fn the_account_of_a_bootloader() {
    assert_eq!(printed("boot_check"), (BOOT_CHECK.into(), true));
}

/// The header's declarations.
#[test]
fn every_call() {
    assert_eq!(printed("every_call"), (String::new(), true));
}

#[test]
fn every_helper() {
    assert_eq!(printed("every_helper"), (String::new(), true));
}

#[test]
fn no_call_takes_more_stack_than_the_headers_say() {
    let (table, within) = printed("stack");
    assert!(within, "{table}");
}

/// The whole archive, linked with `bare.c` and no library.
#[test]
fn the_archive_needs_memcpy_and_memset_alone() {
    let linked = compiler()
        .args(["-std=c99", "-Wall", "-Wextra", "-Werror", "-Wpedantic"])
        .args(["-O1", "-fno-tree-loop-distribute-patterns"])
        .args(["-nostdlib", "-static", "-Wl,--entry=ledger_turn"])
        .arg(root().join("host/c/bare.c"))
        .arg("-Wl,--whole-archive")
        .arg(root().join("target/staticlib/libledger.a"))
        .arg("-Wl,--no-whole-archive")
        .arg("-o")
        .arg(Path::new(env!("CARGO_TARGET_TMPDIR")).join("bare"))
        .status()
        .expect("a compiler for C");
    assert!(linked.success());
}

/// For a host in C++ the headers are enough, and the layout that they assert is C's.
#[test]
fn the_headers_are_cpp_too() {
    let compiled = Command::new("g++")
        .args(["-std=c++11", "-Wall", "-Wextra", "-Werror", "-Wpedantic"])
        .args(["-fsyntax-only", "-x", "c++", "-I"])
        .arg(root().join("include"))
        .arg(root().join("host/c/ledger_host.h"))
        .status()
        .expect("g++");
    assert!(compiled.success());
}
