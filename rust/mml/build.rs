//! Links the static library that the environment variable `MML_LIB` leads to.

use std::env;
use std::path::PathBuf;
use std::process::exit;

const LIBRARY: &str = "libmml.a";

fn main() {
    println!("cargo:rerun-if-env-changed=MML_LIB");
    judge_target();
    let folder = match env::var_os("MML_LIB") {
        Some(folder) if !folder.is_empty() => PathBuf::from(folder),
        _ => stop(&format!(
            "MML_LIB is not set. Set it to the whole path of the folder that has {LIBRARY}."
        )),
    };
    if !folder.is_absolute() {
        stop(&format!(
            "MML_LIB is `{}`. Give the whole path of the folder that has {LIBRARY}.",
            folder.display()
        ));
    }
    let library = folder.join(LIBRARY);
    if !library.is_file() {
        stop(&format!(
            "MML_LIB is `{}`, but that folder has no {LIBRARY}.",
            folder.display()
        ));
    }
    println!("cargo:rerun-if-changed={}", library.display());
    println!("cargo:rustc-link-search=native={}", folder.display());
    println!("cargo:rustc-link-lib=static=mml");
}

/// Ends the build unless it is for a machine that the library's code runs on.
fn judge_target() {
    let of_target = |what: &str| env::var(format!("CARGO_CFG_TARGET_{what}")).unwrap_or_default();
    let (arch, os, width) = (
        of_target("ARCH"),
        of_target("OS"),
        of_target("POINTER_WIDTH"),
    );
    if arch != "x86_64" || width != "64" || !matches!(os.as_str(), "linux" | "none") {
        stop(&format!(
            "{LIBRARY} is x86-64 code for Linux, and this build is for {arch}, {width} bits, {os}. \
             Build with `--target x86_64-unknown-linux-gnu`; rust/README.md says how to build and run that on another processor."
        ));
    }
}

/// Ends the build with a message.
fn stop(message: &str) -> ! {
    println!("cargo:warning={message}");
    eprintln!("error: {message}");
    exit(1)
}
