//! Links the archive that `./build` makes, and says which compiler made the programs.
use std::{env, path::Path, process::Command};

fn main() {
    let root = env::var("CARGO_MANIFEST_DIR").expect("cargo sets it");
    let folder = Path::new(&root).join("../../target/talwighest");
    let archive = folder.join("libtalwighest.a");
    println!("cargo:rerun-if-changed={}", archive.display());
    let compiler = Command::new(env::var("RUSTC").expect("cargo sets it")).arg("--version").output().expect("it starts");
    println!("cargo:rustc-env=COMPILER={}", String::from_utf8(compiler.stdout).expect("a plain name").trim());
    // `oracle/rules` builds one program that calls nothing of the library, and may do so before there is an archive. Cargo looks
    // again each time if it is told of a file that is never there.
    if !archive.is_file() {
        println!("cargo:rerun-if-changed={}", folder.join("never").display());
        return;
    }
    println!("cargo:rustc-link-search=native={}", folder.display());
    println!("cargo:rustc-link-lib=static=talwighest");
}
