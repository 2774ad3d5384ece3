//! Tells cargo where the two archives are that the wrapper links: the proved library `libexports.a`,
//! and the kit's `liblibc_c.a`, through which the library calls `malloc` and `free`.

use std::env;
use std::path::{Path, PathBuf};
use std::process::Command;

fn main() {
    println!("cargo::rerun-if-env-changed=FAULTSIEVE_LIB");
    println!("cargo::rerun-if-env-changed=RATTLE_HOME");
    link(&library_folder(), "exports", "run `rt lib` in crates/exports, or name its folder by FAULTSIEVE_LIB");
    match kit_folder() {
        Some(kit) => link(&kit.join("c"), "libc_c", "this Rattle kit does not have it"),
        None => println!("cargo::error=`rt doc` does not say where the Rattle kit is; is `rt` on the path?"),
    }
}

/// Links an archive, or says what to do where it is missing.
fn link(folder: &Path, name: &str, advice: &str) {
    let archive = folder.join(format!("lib{name}.a"));
    println!("cargo::rerun-if-changed={}", archive.display());
    if !archive.is_file() {
        println!("cargo::error=there is no {}: {advice}", archive.display());
        return;
    }
    println!("cargo::rustc-link-search=native={}", folder.display());
    println!("cargo::rustc-link-lib=static={name}");
}

/// The folder with the proved library: that of FAULTSIEVE_LIB, or the one that `rt lib` writes to.
fn library_folder() -> PathBuf {
    match env::var_os("FAULTSIEVE_LIB") {
        Some(folder) => PathBuf::from(folder),
        None => Path::new(env!("CARGO_MANIFEST_DIR")).join("../../crates/exports/out"),
    }
}

/// The folder of the kit. `rt doc` prints the path of its guide, which stands in it.
fn kit_folder() -> Option<PathBuf> {
    let output = Command::new("rt").arg("doc").output().ok()?;
    let guide = String::from_utf8(output.stdout).ok()?;
    Path::new(guide.trim()).ancestors().nth(1).filter(|kit| kit.is_dir()).map(Path::to_path_buf)
}
