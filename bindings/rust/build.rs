//! Links the static library `libacpins.a`. It is looked for in the folder ACPINS_LIB; where that
//! isn't set, in `out/lib` of the repository, where `./library` puts it; and else in the folder
//! that pkg-config knows of `acpins`.
use std::env;
use std::path::{Path, PathBuf};
use std::process::Command;

const ARCHIVE: &str = "libacpins.a";

fn from_pkg_config() -> Option<PathBuf> {
    let words = ["--variable=libdir", "acpins"];
    let ran = Command::new("pkg-config").args(words).output().ok()?;
    let folder = String::from_utf8(ran.stdout).ok()?;
    (ran.status.success() && !folder.trim().is_empty()).then(|| PathBuf::from(folder.trim()))
}

fn main() {
    println!("cargo:rerun-if-env-changed=ACPINS_LIB");
    println!("cargo:rerun-if-env-changed=PKG_CONFIG_PATH");
    let here = env::var("CARGO_MANIFEST_DIR").unwrap_or_default();
    let own = Path::new(&here).join("../../out/lib");
    let folder = match env::var_os("ACPINS_LIB") {
        Some(folder) => PathBuf::from(folder),
        None if own.join(ARCHIVE).is_file() => own,
        None => from_pkg_config().unwrap_or(own),
    };
    let archive = folder.join(ARCHIVE);
    println!("cargo:rerun-if-changed={}", archive.display());
    if !archive.is_file() {
        println!(
            "cargo:warning={} is not there: run ./library of the repository, or set ACPINS_LIB",
            archive.display()
        );
    }
    println!("cargo:rustc-link-search=native={}", folder.display());
    println!("cargo:rustc-link-lib=static=acpins");
}
