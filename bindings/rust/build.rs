//! Finds `libsyned.a` and links it: in the folder that `SYNED_LIB` names, else in `bindings/out`, beside this crate.
//! Without it the crate is checked and documented, and no program is linked.

use std::env;
use std::path::PathBuf;

fn main() {
    println!("cargo:rerun-if-env-changed=SYNED_LIB");
    let folder = match env::var_os("SYNED_LIB") {
        Some(folder) => PathBuf::from(folder),
        None => PathBuf::from(env::var_os("CARGO_MANIFEST_DIR").unwrap_or_default()).join("../out"),
    };
    let archive = folder.join("libsyned.a");
    println!("cargo:rerun-if-changed={}", archive.display());
    if !archive.is_file() {
        println!(
            "cargo:warning=there is no {}, so no program can be linked: `bash bindings/build.sh`, at the top of the \
             repository, makes bindings/out/libsyned.a. If it is in another folder, name that in the variable SYNED_LIB.",
            archive.display()
        );
        return;
    }
    // The linker may be called in another folder.
    let folder = folder.canonicalize().unwrap_or(folder);
    println!("cargo:rustc-link-search=native={}", folder.display());
    println!("cargo:rustc-link-lib=static=syned");
}
