// Compiles the C to compare with, and links the port's archive (MISHKELDUR_ARCHIVE, or the repository's own; `none` leaves our side
// out) and libmariadb, if it is there.
#[path = "../oracle/archive.rs"]
mod archive;

use std::{env, path::PathBuf, process::Command};

fn main() {
    println!("cargo::rustc-check-cfg=cfg(mariadb)");
    let out = PathBuf::from(env::var("OUT_DIR").expect("cargo says it"));
    for name in ["plain", "walk"] {
        let object = out.join(format!("{name}.o"));
        let mut gcc = Command::new("gcc");
        gcc.args(["-O2", "-std=c11", "-Wall", "-Wextra", "-Wpedantic", "-Werror", "-c", "-o"]).arg(&object).arg(format!("{name}.c"));
        let status = gcc.status().expect("gcc runs");
        assert!(status.success(), "{name}.c does not compile");
        println!("cargo::rerun-if-changed={name}.c");
        println!("cargo::rustc-link-arg-bins={}", object.display());
    }
    for (key, program) in [("RUSTC_SAYS", "rustc"), ("GCC_SAYS", "gcc")] {
        let said = Command::new(program).arg("--version").output().expect("it runs").stdout;
        println!("cargo::rustc-env={key}={}", String::from_utf8_lossy(&said).lines().next().unwrap_or(""));
    }
    let probe = out.join("probe.c");
    std::fs::write(&probe, "#include <mysql.h>\nint main(void) { return mysql_init(0) == 0; }\n").expect("OUT_DIR takes it");
    let flags = ["-I/usr/include/mariadb", "-lmariadb", "-o"];
    if Command::new("gcc").arg(&probe).args(flags).arg(out.join("probe")).output().is_ok_and(|o| o.status.success()) {
        println!("cargo::rustc-cfg=mariadb");
        println!("cargo::rustc-link-arg-bins=-lmariadb");
    } else {
        println!("cargo::warning=libmariadb is missing (Debian's libmariadb-dev): its column stays empty");
    }
    archive::link();
}
