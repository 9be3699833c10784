//! Finds `libcolock.a`: in the folder `COLOCK_LIB_DIR`; or where `make library` in bindings/c puts it; or where pkg-config
//! says that it is installed.

use std::env;
use std::path::{Path, PathBuf};
use std::process::Command;

const ARCHIVE: &str = "libcolock.a";

fn main() {
    for name in ["COLOCK_LIB_DIR", "PKG_CONFIG_PATH"] {
        println!("cargo:rerun-if-env-changed={name}");
    }
    let folder = match env::var_os("COLOCK_LIB_DIR") {
        Some(folder) => PathBuf::from(folder),
        None => Some(made_here())
            .filter(|folder| has_archive(folder))
            .or_else(installed)
            .expect("libcolock.a isn't there: run `make library` in bindings/c, or install it where pkg-config finds it, or set COLOCK_LIB_DIR to its folder"),
    };
    assert!(has_archive(&folder), "{} isn't there, where COLOCK_LIB_DIR says", folder.join(ARCHIVE).display());
    println!("cargo:rerun-if-changed={}", folder.join(ARCHIVE).display());
    println!("cargo:rustc-link-search=native={}", folder.display());
    println!("cargo:rustc-link-lib=static=colock");
}

fn has_archive(folder: &Path) -> bool {
    folder.join(ARCHIVE).exists()
}

fn made_here() -> PathBuf {
    PathBuf::from(env::var_os("CARGO_MANIFEST_DIR").expect("cargo sets it")).join("../../c/build")
}

/// The folder of the archive that is installed, if it is as new as this crate.
fn installed() -> Option<PathBuf> {
    let wanted = format!("colock >= {}", env::var("CARGO_PKG_VERSION").expect("cargo sets it"));
    let mut asked = Command::new("pkg-config");
    // else it leaves out the folders that a linker looks in by itself, where rustc doesn't look for an archive
    asked.args(["--static", "--libs-only-L", &wanted]).env("PKG_CONFIG_ALLOW_SYSTEM_LIBS", "1");
    let told = asked.output().ok().filter(|told| told.status.success())?;
    let folders = String::from_utf8(told.stdout).ok()?;
    folders.split_whitespace().filter_map(|word| word.strip_prefix("-L")).map(PathBuf::from).find(|folder| has_archive(folder))
}
