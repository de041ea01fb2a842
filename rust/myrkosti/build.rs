//! Finds the library and links it. Or, where `MYRKOSTI_CC` is set, compiles the bridge against it with that compiler, to be run in a process of its
//! own: so the archive of another machine can be used, under an emulator.
//!
//! | Variable | What it names | Otherwise |
//! |---|---|---|
//! | `MYRKOSTI_LIB` | directory of `libmyrkosti.a` | on x86-64 `target/staticlib` of the repository, elsewhere `target/aarch64-linux-gnu` or the like |
//! | `MYRKOSTI_CC` | compiler for the bridge | the archive is linked |
//! | `MYRKOSTI_EMULATOR` | emulator for the bridge | it runs as it is |

use std::env;
use std::path::{Path, PathBuf};
use std::process::{exit, Command};

fn main() {
    for name in ["MYRKOSTI_LIB", "MYRKOSTI_CC", "MYRKOSTI_EMULATOR"] {
        println!("cargo:rerun-if-env-changed={name}");
    }
    println!("cargo:rustc-check-cfg=cfg(direct)");
    let crate_root = path("CARGO_MANIFEST_DIR").unwrap_or_default();
    let repository = crate_root.join("../..");
    let library = path("MYRKOSTI_LIB").unwrap_or_else(|| repository.join("target").join(own_archive()));
    let archive = library.join("libmyrkosti.a");
    println!("cargo:rerun-if-changed={}", archive.display());
    if !archive.exists() {
        fail(&format!("{} is missing: make it with `make archive`", archive.display()));
    }
    if let Some(compiler) = path("MYRKOSTI_CC") {
        compile_bridge(&compiler, &crate_root.join("bridge/bridge.c"), &repository.join("include"), &archive);
    } else {
        println!("cargo:rustc-cfg=direct");
        println!("cargo:rustc-link-search=native={}", library.display());
        println!("cargo:rustc-link-lib=static=myrkosti");
    }
}

/// The folder of the archive for the machine that the program is built for: on x86-64 the proved one itself.
fn own_archive() -> String {
    match env::var("CARGO_CFG_TARGET_ARCH").unwrap_or_default().as_str() {
        "x86_64" => "staticlib".into(),
        machine => format!("{machine}-linux-gnu"),
    }
}

fn path(name: &str) -> Option<PathBuf> {
    env::var_os(name).map(PathBuf::from)
}

fn fail(why: &str) -> ! {
    eprintln!("{why}");
    exit(1)
}

fn compile_bridge(compiler: &Path, source: &Path, include: &Path, archive: &Path) {
    println!("cargo:rerun-if-changed={}", source.display());
    println!("cargo:rerun-if-changed={}", include.join("myrkosti.h").display());
    let bridge = path("OUT_DIR").unwrap_or_default().join("bridge");
    let compiled = Command::new(compiler)
        .args(["-std=c11", "-O2", "-Wall", "-Wextra", "-Wpedantic", "-Werror", "-static", "-I"])
        .args([include, source, archive])
        .arg("-o")
        .arg(&bridge)
        .status();
    if !compiled.is_ok_and(|status| status.success()) {
        fail(&format!("{} could not compile {}", compiler.display(), source.display()));
    }
    println!("cargo:rustc-env=MYRKOSTI_BRIDGE={}", bridge.display());
    println!("cargo:rustc-env=MYRKOSTI_EMULATOR={}", env::var("MYRKOSTI_EMULATOR").unwrap_or_default());
}
