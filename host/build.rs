//! Proves and builds the static library, and links it; where no source has changed, that takes a moment. `library.sh` has it from
//! `rt` for x86-64, and `native.sh` compiles the same module for any other machine. A folder that holds a library already built
//! can be named in `BURRCRADLE_LIB_DIR`.
use std::path::{Path, PathBuf};
use std::{env, fs, process::Command};

fn main() {
    println!("cargo:rerun-if-env-changed=BURRCRADLE_LIB_DIR");
    let root = Path::new(&env::var("CARGO_MANIFEST_DIR").unwrap()).join("..");
    for watched in ["crates.txt", "host/library.sh", "host/native.sh"] {
        println!("cargo:rerun-if-changed={}", root.join(watched).display());
    }
    // Not a crate's whole folder: `rt` keeps its work in `out`, and that changes with each check.
    for member in fs::read_dir(root.join("crates")).expect("crates") {
        for part in ["src", "specs", "proofs"] {
            let folder = member.as_ref().expect("a crate").path().join(part);
            if folder.exists() {
                println!("cargo:rerun-if-changed={}", folder.display());
            }
        }
    }
    let folder = match env::var("BURRCRADLE_LIB_DIR") {
        Ok(given) => given.into(),
        Err(_) => build(&root),
    };
    println!("cargo:rustc-link-search=native={}", folder.display());
    println!("cargo:rustc-link-lib=static=burrcradle");
}

/// The folder of the library that this machine can link.
fn build(root: &Path) -> PathBuf {
    if env::var("CARGO_CFG_TARGET_ARCH").unwrap() == "x86_64" {
        run(root, "bash", &["host/library.sh"]);
        root.join("target/staticlib")
    } else {
        run(root, "bash", &["host/native.sh"]);
        root.join("target/native")
    }
}

fn run(root: &Path, command: &str, words: &[&str]) {
    match Command::new(command).args(words).current_dir(root).output() {
        Ok(out) if out.status.success() => {}
        Ok(out) => panic!(
            "{command} {words:?} failed:\n{}{}",
            String::from_utf8_lossy(&out.stdout),
            String::from_utf8_lossy(&out.stderr)
        ),
        Err(e) => panic!("{command} could not be run: {e}"),
    }
}
