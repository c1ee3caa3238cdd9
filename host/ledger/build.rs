//! Links the archive of the proved library: the file that LEDGER_ARCHIVE names, or else the one that `tools/archive` writes in this
//! repository.
use std::path::{Path, PathBuf};
use std::{env, fs};

const WRITTEN: &str = "target/staticlib/libledger.a";

fn main() {
    println!("cargo::rerun-if-env-changed=LEDGER_ARCHIVE");
    println!("cargo::rerun-if-changed=build.rs");
    if let Err(fault) = link() {
        println!("cargo::error={fault}");
    }
}

fn link() -> Result<(), String> {
    let target = env::var("TARGET").unwrap();
    if !target.starts_with("x86_64-") || target.contains("windows") {
        return Err(format!(
            "the archive is for x86-64 (System V), and this is a build for {target}"
        ));
    }
    let archive = archive();
    println!("cargo::rerun-if-changed={}", archive.display());
    let folder = env::var("OUT_DIR").unwrap();
    // a name of its own, so that the linker finds this file and no other
    fs::copy(&archive, Path::new(&folder).join("libproved_ledger.a")).map_err(|fault| {
        format!(
            "can't read {}: {fault}. Run `tools/archive`, or name the archive in LEDGER_ARCHIVE",
            archive.display()
        )
    })?;
    println!("cargo::rustc-link-search=native={folder}");
    println!("cargo::rustc-link-lib=static=proved_ledger");
    Ok(())
}

fn archive() -> PathBuf {
    match env::var_os("LEDGER_ARCHIVE") {
        Some(named) => named.into(),
        None => Path::new(env!("CARGO_MANIFEST_DIR"))
            .join("../..")
            .join(WRITTEN),
    }
}
