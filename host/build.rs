//! Proves the library and links the archive that this leaves, unless one stands that is newer than every source.

use std::env;
use std::fs;
use std::path::{Path, PathBuf};
use std::process::{exit, Command};
use std::time::SystemTime;

fn main() {
    println!("cargo:rerun-if-changed=build.rs");
    if env::var_os("CARGO_FEATURE_PROVED").is_none() {
        return;
    }
    let root = repository();
    let archive = root.join("target/staticlib/liboilwhisper.a");
    let sources = sources(&root);
    for path in sources.iter().chain([&archive]) {
        println!("cargo:rerun-if-changed={}", path.display());
    }
    let arch = env::var("CARGO_CFG_TARGET_ARCH").unwrap_or_default();
    if arch != env::consts::ARCH {
        give_up(&format!("host/archive makes the proved library for this machine, which is {}, and cargo builds for {}", env::consts::ARCH, arch));
    }
    if !is_up_to_date(&archive, &sources) {
        prove(&root);
    }
    if let Some(folder) = archive.parent() {
        println!("cargo:rustc-link-search=native={}", folder.display());
    }
    println!("cargo:rustc-link-lib=static=oilwhisper");
}

fn repository() -> PathBuf {
    let here = PathBuf::from(env::var_os("CARGO_MANIFEST_DIR").unwrap_or_default());
    match here.parent() {
        Some(root) => root.to_path_buf(),
        None => give_up("this crate stands in the repository's folder host, and that folder has no parent"),
    }
}

/// What the archive is made of. What the kit keeps in a crate's folder `out` is no source.
fn sources(root: &Path) -> Vec<PathBuf> {
    let crates = fs::read_dir(root.join("crates")).into_iter().flatten().flatten();
    let folders = crates.flat_map(|folder| ["src", "specs", "proofs"].map(|part| folder.path().join(part)));
    folders.filter(|folder| folder.exists()).chain([root.join("crates.txt"), root.join("host/archive")]).collect()
}

fn prove(root: &Path) {
    match Command::new(root.join("host/archive")).arg("face_c").status() {
        Ok(status) if status.success() => {}
        Ok(_) => give_up("'host/archive face_c' failed: run it to see why"),
        Err(e) => give_up(&format!("cannot run host/archive, which proves and builds the library: {}", e)),
    }
}

fn is_up_to_date(archive: &Path, sources: &[PathBuf]) -> bool {
    match changed(archive) {
        Some(built) => sources.iter().all(|source| newest(source) <= built),
        None => false,
    }
}

fn changed(path: &Path) -> Option<SystemTime> {
    fs::metadata(path).and_then(|told| told.modified()).ok()
}

/// When the newest file at or below the path was written.
fn newest(path: &Path) -> SystemTime {
    let below = fs::read_dir(path).map(|entries| entries.flatten().map(|entry| newest(&entry.path())).max());
    match below {
        Ok(newest) => newest.unwrap_or(SystemTime::UNIX_EPOCH),
        Err(_) => changed(path).unwrap_or_else(SystemTime::now),
    }
}

fn give_up(why: &str) -> ! {
    eprintln!("{}", why);
    exit(1);
}
