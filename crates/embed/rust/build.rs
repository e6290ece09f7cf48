//! Links the archive libembed.a from the folder CAUSES_LIB, by default target/staticlib of the repository. Where it is
//! missing, or made for another machine than the build's target, the build ends with a word on what to do.

use std::env;
use std::path::PathBuf;
use std::process::exit;

/// The variable `name` that cargo sets.
fn set(name: &str) -> String {
    env::var(name).unwrap_or_default()
}

/// Ends the build with `text`.
fn stop(text: &str) -> ! {
    eprintln!("causes: {text}");
    exit(1)
}

fn main() {
    println!("cargo:rerun-if-env-changed=CAUSES_LIB");
    let machine = format!("{} {}", set("CARGO_CFG_TARGET_ARCH"), set("CARGO_CFG_TARGET_OS"));
    if machine != "x86_64 linux" {
        stop(&format!(
            "libembed.a is for x86_64 linux, and this build for {machine}. Build with --target x86_64-unknown-linux-gnu."
        ));
    }
    let package = PathBuf::from(set("CARGO_MANIFEST_DIR"));
    let folder = env::var_os("CAUSES_LIB").map_or(package.join("../../../target/staticlib"), PathBuf::from);
    let archive = folder.join("libembed.a");
    println!("cargo:rerun-if-changed={}", archive.display());
    if !archive.is_file() {
        stop(&format!(
            "there is no archive {}. Run `./build embed` in the repository, or name the archive's folder in the \
             variable CAUSES_LIB.",
            archive.display()
        ));
    }
    println!("cargo:rustc-link-search=native={}", folder.display());
    println!("cargo:rustc-link-lib=static=embed");
}
