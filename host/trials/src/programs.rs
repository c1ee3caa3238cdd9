//! What the tests compile and run besides themselves: programs in C, and the report program. All of them are for x86-64, as the archive is. On
//! another machine the environment variable LEDGER_CC names a compiler for it, and the words of LEDGER_RUNNER, an emulator and its options,
//! stand before every program.
use std::env;
use std::ffi::OsStr;
use std::path::{Path, PathBuf};
use std::process::Command;

/// The top of the repository.
pub fn root() -> PathBuf {
    Path::new(env!("CARGO_MANIFEST_DIR")).join("../..")
}

/// The compiler for C.
pub fn compiler() -> Command {
    Command::new(env::var_os("LEDGER_CC").unwrap_or("gcc".into()))
}

/// A program, ready to be run.
pub fn program(path: impl AsRef<OsStr>) -> Command {
    let runner = env::var("LEDGER_RUNNER").unwrap_or_default();
    let mut words = runner.split_whitespace();
    let Some(first) = words.next() else {
        return Command::new(path);
    };
    let mut command = Command::new(first);
    command.args(words).arg(path);
    command
}
