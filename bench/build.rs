//! Links the proved library, a static archive. GUSSETREED_LIB_DIR names another folder for it.

use std::path::PathBuf;
use std::process::{exit, Command};

const ARCHIVE: &str = "libgussetreed.a";

fn folder() -> PathBuf {
    println!("cargo:rerun-if-env-changed=GUSSETREED_LIB_DIR");
    match std::env::var_os("GUSSETREED_LIB_DIR") {
        Some(given) => PathBuf::from(given),
        None => {
            PathBuf::from(std::env::var_os("CARGO_MANIFEST_DIR").expect("cargo names the manifest's folder")).join("../target/staticlib")
        }
    }
}

/// What `rustc --version` says, for the head of the measurements.
fn version() -> Option<String> {
    let rustc = std::env::var_os("RUSTC")?;
    let out = Command::new(rustc).arg("--version").output().ok()?;
    Some(String::from_utf8(out.stdout).ok()?.trim().to_string())
}

fn main() {
    let folder = folder();
    let archive = folder.join(ARCHIVE);
    println!("cargo:rerun-if-changed={}", archive.display());
    if !archive.is_file() {
        eprintln!("{} is missing: run bin/hosts, which proves and builds it", archive.display());
        exit(1);
    }
    println!("cargo:rustc-link-search=native={}", folder.display());
    println!("cargo:rustc-link-lib=static=gussetreed");
    println!("cargo:rustc-env=RUSTC_VERSION={}", version().unwrap_or_else(|| "rustc, version not known".to_string()));
}
