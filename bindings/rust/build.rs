//! Links the archive that `./build`, at the top of the repository, makes. The environment variable TALWIGHEST_DIR names the
//! folder that has it. Without it that is target/talwighest of the repository.
use std::env;
use std::path::PathBuf;

fn main() {
    println!("cargo:rerun-if-env-changed=TALWIGHEST_DIR");
    let processor = env::var("CARGO_CFG_TARGET_ARCH").expect("cargo sets it");
    if processor != "x86_64" {
        stop(&format!("the archive is for x86-64, and this build is for {processor}"));
    }
    let (folder, chosen) = match env::var_os("TALWIGHEST_DIR") {
        Some(named) => (PathBuf::from(named), "which TALWIGHEST_DIR names"),
        None => (beside(), "and TALWIGHEST_DIR names no other folder"),
    };
    // Cargo runs this in the crate's own folder, where a part of a path would lead elsewhere than its writer meant.
    if !folder.is_absolute() {
        stop(&format!("TALWIGHEST_DIR is {}, which is not a whole path: let it begin with /", folder.display()));
    }
    let archive = folder.join("libtalwighest.a");
    println!("cargo:rerun-if-changed={}", archive.display());
    if !archive.is_file() {
        stop(&format!(
            "there is no libtalwighest.a in {}, {chosen}. `./build`, at the top of Talwighest's repository, makes the folder \
             target/talwighest there, which has it",
            folder.display()
        ));
    }
    println!("cargo:rustc-link-search=native={}", folder.display());
    println!("cargo:rustc-link-lib=static=talwighest");
}

/// The folder that `./build` makes, if the wrapper stands in the repository.
fn beside() -> PathBuf {
    let own = PathBuf::from(env::var_os("CARGO_MANIFEST_DIR").expect("cargo sets it"));
    own.ancestors().nth(2).unwrap_or(&own).join("target/talwighest")
}

fn stop(reason: &str) -> ! {
    eprintln!("talwighest: {reason}");
    std::process::exit(1);
}
