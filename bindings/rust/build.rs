//! Proves and builds the static library handover_c with `rt`, the Rattle toolchain, and links it.
use std::path::{Path, PathBuf};
use std::process::{exit, Command};
use std::{env, fs};

const LIBRARY: &str = "libhandover_c.a";

fn fail(message: &str) -> ! {
    eprintln!("lurmashek: {message}");
    exit(1)
}

/// Runs `rt lib` in the folder of handover_c; what it has proved before it does not prove again.
fn prove(crate_folder: &Path) {
    let run = Command::new("rt").arg("lib").current_dir(crate_folder).output();
    let out = run.unwrap_or_else(|e| {
        fail(&format!(
            "cannot run `rt`, which proves and builds {LIBRARY} ({e}); install the Rattle toolchain, with rt in PATH"
        ))
    });
    if !out.status.success() {
        let said = [out.stdout, out.stderr].concat();
        fail(&format!(
            "`rt lib` failed in {} ({}). Its output:\n{}",
            crate_folder.display(),
            out.status,
            String::from_utf8_lossy(&said)
        ));
    }
}

/// A path that cargo hands to build scripts.
fn path(name: &str) -> PathBuf {
    env::var_os(name).map_or_else(|| fail(&format!("cargo has not set {name}")), PathBuf::from)
}

fn main() {
    let root = path("CARGO_MANIFEST_DIR").join("../..");
    let out = path("OUT_DIR");
    let crate_folder = root.join("crates/handover_c");
    prove(&crate_folder);
    // A copy of our own: the crate's out/ may be removed, or its library made anew, at any time.
    let made = crate_folder.join("out").join(LIBRARY);
    if let Err(e) = fs::copy(&made, out.join(LIBRARY)) {
        fail(&format!("cannot copy {}: {e}", made.display()));
    }
    println!("cargo:rustc-link-search=native={}", out.display());
    println!("cargo:rustc-link-lib=static=handover_c");
    println!("cargo:rerun-if-changed={}", root.join("crates.txt").display());
    let crates = fs::read_dir(root.join("crates")).unwrap_or_else(|e| fail(&format!("cannot list crates/: {e}")));
    for folder in crates.flatten() {
        // Not out/, which each build writes.
        for sources in ["src", "specs", "proofs"] {
            let sources = folder.path().join(sources);
            if sources.is_dir() {
                println!("cargo:rerun-if-changed={}", sources.display());
            }
        }
    }
}
