//! Finds libengine.a and tells cargo to link it. It is looked for in the folder that LUNTHEGYR_LIB names, or else where
//! `tools/build engine` puts it.

use std::env;
use std::path::PathBuf;
use std::process::exit;

fn main() {
    let folder = match env::var_os("LUNTHEGYR_LIB") {
        Some(named) => PathBuf::from(named),
        None => {
            let manifest =
                env::var_os("CARGO_MANIFEST_DIR").expect("cargo sets CARGO_MANIFEST_DIR");
            PathBuf::from(manifest).join("../../target/staticlib")
        }
    };
    let library = folder.join("libengine.a");
    println!("cargo:rerun-if-env-changed=LUNTHEGYR_LIB");
    println!("cargo:rerun-if-changed={}", library.display());
    if !library.is_file() {
        eprintln!("lunthegyr: {} is not there.", library.display());
        eprintln!("Build it with `tools/build engine` in the repository's folder, or name the folder that has it in LUNTHEGYR_LIB.");
        exit(1);
    }
    println!("cargo:rustc-link-search=native={}", folder.display());
    println!("cargo:rustc-link-lib=static=engine");
}
