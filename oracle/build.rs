//! Links the archive that `./staticlib` writes, or on another machine than x86-64 the one of `oracle/native`, where there is one. The
//! oracle builds without it too: the commands that run our linker in the same process then say what is missing.

use std::env;
use std::path::PathBuf;

const ARCHIVE: &str = "libnjuolasti.a";

fn main() {
    println!("cargo:rerun-if-changed=build.rs");
    println!("cargo:rerun-if-env-changed=NJUOLASTI_LIB_DIR");
    println!("cargo:rustc-check-cfg=cfg(has_njuolasti)");
    let folder = folder();
    let archive = folder.join(ARCHIVE);
    println!("cargo:rerun-if-changed={}", archive.display());
    if target("OS") != "linux" || !archive.is_file() {
        return;
    }
    // A path that is not absolute would mean another folder where the linker runs.
    let folder = folder.canonicalize().unwrap_or(folder);
    println!("cargo:rustc-cfg=has_njuolasti");
    println!("cargo:rustc-link-search=native={}", folder.display());
    println!("cargo:rustc-link-lib=static=njuolasti");
}

/// The folder that holds the archive: the one asked for, or that of the repository for this kind of machine.
fn folder() -> PathBuf {
    if let Some(folder) = env::var_os("NJUOLASTI_LIB_DIR") {
        return PathBuf::from(folder);
    }
    let kind = if target("ARCH") == "x86_64" {
        "staticlib"
    } else {
        "native"
    };
    PathBuf::from(env!("CARGO_MANIFEST_DIR"))
        .join("../target")
        .join(kind)
}

/// What cargo says of the machine that the oracle is built for.
fn target(part: &str) -> String {
    env::var(format!("CARGO_CFG_TARGET_{part}")).unwrap_or_default()
}
