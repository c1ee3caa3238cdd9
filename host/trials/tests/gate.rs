//! The gate's counting, `.ci/run` with other commands in the place of `rt` and `cargo`: its last line and its exit status.
use std::os::unix::fs::{symlink, PermissionsExt};
use std::path::{Path, PathBuf};
use std::process::Command;
use std::{env, fs};

use trials::programs::root;

const CI: &str = "echo 'rt: ok; handles allowed: none; must-fail edits: 42 refused; every proof and must-fail edit was done in this run'; \
    echo '65 passed, 0 failed'";
const TESTS: &str = "echo 'test result: ok. 139 passed; 0 failed; 0 ignored'; \
    echo 'test result: ok. 0 passed; 0 failed; 0 ignored'; echo 'test result: ok. 5 passed; 0 failed; 0 ignored'";

/// What the gate uses besides. No other command is to be found, above all no real `cargo`.
const TOOLS: [&str; 9] = [
    "awk", "bash", "dirname", "mkdir", "mktemp", "rm", "sh", "tee", "timeout",
];

fn found(tool: &str) -> PathBuf {
    let path = env::var_os("PATH").unwrap();
    let mut places = env::split_paths(&path).map(|folder| folder.join(tool));
    places.find(|place| place.exists()).expect(tool)
}

/// A folder with an `rt` whose `ci` and `lib` do this, a `cargo` that does that, and a `cp` that leaves the archive as it is.
fn commands(name: &str, ci: &str, lib: &str, cargo: Option<&str>) -> PathBuf {
    let folder = Path::new(env!("CARGO_TARGET_TMPDIR")).join(name);
    let _ = fs::remove_dir_all(&folder);
    fs::create_dir(&folder).unwrap();
    for tool in TOOLS {
        symlink(found(tool), folder.join(tool)).unwrap();
    }
    let rt = format!("case $1 in ci) {ci} ;; lib) {lib} ;; esac");
    for (name, script) in [("rt", Some(&rt[..])), ("cargo", cargo), ("cp", Some(":"))] {
        if let Some(script) = script {
            let path = folder.join(name);
            fs::write(&path, format!("#!/bin/sh\n{script}\n")).unwrap();
            fs::set_permissions(&path, fs::Permissions::from_mode(0o755)).unwrap();
        }
    }
    folder
}

/// The gate's last line, and whether it succeeded.
fn gate(name: &str, ci: &str, lib: &str, cargo: Option<&str>) -> (String, bool) {
    let folder = commands(name, ci, lib, cargo);
    let gate = root().join(".ci/run");
    let output = Command::new(gate).env("PATH", folder).output().unwrap();
    let text = String::from_utf8(output.stdout).unwrap();
    (
        text.lines().last().unwrap().to_string(),
        output.status.success(),
    )
}

#[test]
fn everything_is_counted() {
    let told = gate("good", CI, ":", Some(TESTS));
    assert_eq!(told, ("209 passed, 0 failed".into(), true));
}

#[test]
fn every_failure_fails() {
    let crates = "echo 'rt: FAILED: pool issue'; echo '63 passed, 2 failed'; exit 1";
    let bad_edits = "echo 'rt: ok; handles allowed: none; must-fail edits: 40 refused, 2 bad; every proof and must-fail edit was done in this run'; \
        echo '63 passed, 0 failed'";
    let tests =
        format!("{TESTS}; echo 'test result: FAILED. 3 passed; 4 failed; 0 ignored'; exit 101");
    let no_tests = "echo 'test result: ok. 0 passed; 0 failed; 0 ignored'";
    for (name, ci, lib, cargo, last) in [
        ("crates", crates, ":", Some(TESTS), "63 passed, 2 failed"),
        ("edits", bad_edits, ":", Some(TESTS), "63 passed, 2 failed"),
        ("tests", CI, ":", Some(&tests[..]), "212 passed, 4 failed"),
        ("ended", CI, ":", Some("exit 101"), "65 passed, 1 failed"),
        ("broken", "exit 2", ":", Some(TESTS), "0 passed, 1 failed"),
        ("silent", ":", ":", Some(TESTS), "0 passed, 1 failed"),
        ("archive", CI, "exit 1", Some(TESTS), "65 passed, 1 failed"),
        ("no_tests", CI, ":", Some(no_tests), "65 passed, 1 failed"),
        ("no_cargo", CI, ":", None, "65 passed, 1 failed"),
    ] {
        let told = gate(name, ci, lib, cargo);
        assert_eq!(told, (last.into(), false), "{name}");
    }
}
