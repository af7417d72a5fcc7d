//! Links the archive that `./staticlib` writes.

use std::env;
use std::path::PathBuf;
use std::process::exit;

const ARCHIVE: &str = "libnjuolasti.a";

fn main() {
    println!("cargo:rerun-if-changed=build.rs");
    println!("cargo:rerun-if-env-changed=NJUOLASTI_LIB_DIR");
    let target = |part| env::var(format!("CARGO_CFG_TARGET_{part}")).unwrap_or_default();
    if target("ARCH") != "x86_64" || target("OS") != "linux" {
        stop("the archive links only into programs for x86-64 Linux");
    }
    let folder = folder();
    let archive = folder.join(ARCHIVE);
    println!("cargo:rerun-if-changed={}", archive.display());
    if !archive.is_file() {
        stop(&format!(
            "there is no {}: run ./staticlib in the repository, or set NJUOLASTI_LIB_DIR to the folder that holds {ARCHIVE}",
            archive.display()
        ));
    }
    // A path that is not absolute would mean another folder where the linker runs.
    let folder = folder.canonicalize().unwrap_or(folder);
    println!("cargo:rustc-link-search=native={}", folder.display());
    println!("cargo:rustc-link-lib=static=njuolasti");
}

/// The folder that holds the archive: the one asked for, or that of the repository.
fn folder() -> PathBuf {
    match env::var_os("NJUOLASTI_LIB_DIR") {
        Some(folder) => PathBuf::from(folder),
        None => PathBuf::from(env!("CARGO_MANIFEST_DIR")).join("../../target/staticlib"),
    }
}

fn stop(why: &str) -> ! {
    eprintln!("njuolasti: {why}");
    exit(1);
}
