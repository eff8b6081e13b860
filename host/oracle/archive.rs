// For build scripts: links the port's archive, MISHKELDUR_ARCHIVE or the repository's own. `none` builds without one, and what is
// compiled can see that: `archive` says that there is one, `packets` that it has the packet entries.
use std::{env, path::PathBuf, process::Command};

pub fn link() {
    println!("cargo::rustc-check-cfg=cfg(archive)");
    println!("cargo::rustc-check-cfg=cfg(packets)");
    println!("cargo::rerun-if-env-changed=MISHKELDUR_ARCHIVE");
    let given = env::var("MISHKELDUR_ARCHIVE").unwrap_or_else(|_| "../../crates/mishkeldur/out/libmishkeldur.a".into());
    if given == "none" {
        return;
    }
    let Ok(archive) = PathBuf::from(&given).canonicalize() else {
        panic!("no archive at {given}: make it with `rt lib` in crates/mishkeldur, or set MISHKELDUR_ARCHIVE");
    };
    println!("cargo::rerun-if-changed={}", archive.display());
    println!("cargo::rustc-link-arg-bins={}", archive.display());
    println!("cargo::rustc-cfg=archive");
    // An archive that is still without packets has no mk_read.
    let symbols = Command::new("nm").arg("-g").arg("--defined-only").arg(&archive).output().expect("nm runs");
    if String::from_utf8_lossy(&symbols.stdout).lines().any(|l| l.ends_with(" mk_read")) {
        println!("cargo::rustc-cfg=packets");
    }
}
