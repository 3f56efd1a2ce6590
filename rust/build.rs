//! Links the proved library, `libranthelo.a`.
//!
//! The environment variable RANTHELO_LIB names the archive's folder: an absolute path, or one relative to this
//! package. Without it the archive is looked for where the toolchain puts it, in crates/ranthelo/out of the
//! repository, and is built if it is not there. The package's own tests find the folder as RANTHELO_FOLDER.

use std::env;
use std::path::{Path, PathBuf};
use std::process::{Command, exit};

const LIBRARY: &str = "ranthelo";

fn main() {
    println!("cargo:rerun-if-changed=build.rs");
    println!("cargo:rerun-if-env-changed=RANTHELO_LIB");
    let package = PathBuf::from(env::var_os("CARGO_MANIFEST_DIR").expect("cargo names the folder"));
    let named = env::var_os("RANTHELO_LIB");
    let folder = match &named {
        Some(folder) => package.join(folder),
        None => package.join("../crates/ranthelo/out"),
    };
    let archive = folder.join(format!("lib{LIBRARY}.a"));
    if !archive.exists() && named.is_none() {
        build(&package.join("../crates").join(LIBRARY));
    }
    if !archive.exists() {
        eprintln!(
            "{} is not there.\nRun `rt lib --cpu x86-64` in crates/{LIBRARY} of the repository, which takes minutes the first time, or \
             let RANTHELO_LIB name the folder that has lib{LIBRARY}.a.",
            archive.display()
        );
        exit(1);
    }
    println!("cargo:rerun-if-changed={}", archive.display());
    println!("cargo:rustc-link-search=native={}", folder.display());
    println!("cargo:rustc-link-lib=static={LIBRARY}");
    println!("cargo:rustc-env=RANTHELO_FOLDER={}", folder.display());
}

/// Proves and builds the library with the toolchain; says what it said if it fails.
fn build(member: &Path) {
    let mut command = Command::new("rt");
    command.args(["lib", "--cpu", "x86-64"]).current_dir(member);
    match command.output() {
        Ok(output) if output.status.success() => {}
        Ok(output) => eprintln!("{}", String::from_utf8_lossy(&output.stderr)),
        Err(error) => eprintln!("rt, the Rattle toolchain, does not start: {error}"),
    }
}
