//! With the feature `benchmarks`: the digest and the check of a manifest in plain C, compiled by LEDGER_CC or gcc, at two levels of optimisation.
use std::path::{Path, PathBuf};
use std::process::Command;
use std::{env, fs};

fn main() {
    println!("cargo:rerun-if-changed=build.rs");
    if env::var_os("CARGO_FEATURE_BENCHMARKS").is_some() {
        compile_plain("O2");
        compile_plain("O3");
    }
}

/// Has both compiled at this level of optimisation, under names of their own.
fn compile_plain(level: &str) {
    let out = env::var("OUT_DIR").unwrap();
    let digest = format!("plain_sha256_{level}");
    let objects = [
        compile("plain_sha256", level, &[("NAME", &digest)]),
        compile(
            "plain_lms",
            level,
            &[("NAME", &format!("plain_lms_{level}")), ("SHA256", &digest)],
        ),
    ];
    let name = format!("plain_{level}");
    run(Command::new("ar")
        .args(["rcs", &format!("{out}/lib{name}.a")])
        .args(objects));
    link(&name, Path::new(&out));
}

/// Has a file of `host/c` compiled with these names, and gives the object.
fn compile(file: &str, level: &str, names: &[(&str, &str)]) -> String {
    let source = package().join("../c").join(file).with_extension("c");
    println!("cargo:rerun-if-changed={}", source.display());
    println!("cargo:rerun-if-env-changed=LEDGER_CC");
    let object = format!("{}/{file}_{level}.o", env::var("OUT_DIR").unwrap());
    let defines = names
        .iter()
        .map(|(name, value)| format!("-D{name}={value}"));
    run(
        Command::new(env::var_os("LEDGER_CC").unwrap_or("gcc".into()))
            .args(["-Wall", "-Wextra", "-Werror", "-c"])
            .arg(format!("-{level}"))
            .args(defines)
            .arg(source)
            .args(["-o", &object]),
    );
    object
}

fn package() -> PathBuf {
    env::var_os("CARGO_MANIFEST_DIR").unwrap().into()
}

fn link(name: &str, folder: &Path) {
    let folder = fs::canonicalize(folder).unwrap();
    println!("cargo:rustc-link-search=native={}", folder.display());
    println!("cargo:rustc-link-lib=static={name}");
}

fn run(command: &mut Command) {
    let status = command.status().expect("a compiler for C, and ar");
    assert!(status.success(), "{command:?}");
}
