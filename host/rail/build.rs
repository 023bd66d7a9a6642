//! Compiles and links what the benchmark alone needs.

use std::env;
use std::path::{Path, PathBuf};
use std::process::{exit, Command};

fn main() {
    println!("cargo:rerun-if-changed=build.rs");
    if env::var_os("CARGO_FEATURE_BENCH").is_some() {
        compile("checksums.c");
        compile("wrapped.c");
        println!("cargo:rustc-link-arg-bin=bench=-Wl,--wrap=memcpy,--wrap=memset");
    }
    if env::var_os("CARGO_FEATURE_USRSCTP").is_some() {
        // It uses more of the C library, and of gcc's own, than what stands before it.
        for library in ["-l:libusrsctp.a", "-lgcc", "-lc"] {
            println!("cargo:rustc-link-arg-bin=bench={}", library);
        }
    }
}

/// C of the benchmark, for its program alone.
fn compile(name: &str) {
    let source = Path::new("src/bin/bench").join(name);
    let object = PathBuf::from(env::var_os("OUT_DIR").unwrap_or_default()).join(name).with_extension("o");
    println!("cargo:rerun-if-changed={}", source.display());
    match Command::new("cc").args(["-std=c99", "-O2", "-c", "-o"]).arg(&object).arg(&source).status() {
        Ok(status) if status.success() => println!("cargo:rustc-link-arg-bin=bench={}", object.display()),
        Ok(_) => give_up(&format!("cc does not compile {}", source.display())),
        Err(e) => give_up(&format!("cannot run cc to compile {}: {}", source.display(), e)),
    }
}

fn give_up(why: &str) -> ! {
    eprintln!("{}", why);
    exit(1);
}
