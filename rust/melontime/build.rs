//! Links the static library that `rt lib` makes in the folder `crates/melontime`.

use std::env;
use std::path::PathBuf;

fn main() {
    println!("cargo::rerun-if-env-changed=MELONTIME_LIB");
    let folder = match env::var_os("MELONTIME_LIB") {
        Some(folder) => PathBuf::from(folder),
        None => {
            let here = env::var_os("CARGO_MANIFEST_DIR").expect("cargo names this folder");
            PathBuf::from(here).join("../../crates/melontime/out")
        }
    };
    let library = folder.join("libmelontime.a");
    println!("cargo::rerun-if-changed={}", library.display());
    if !library.exists() {
        println!(
            "cargo::error={} is not there: run `rt lib` in the folder crates/melontime of the \
             repository, or name its folder in MELONTIME_LIB",
            library.display()
        );
    }
    println!("cargo::rustc-link-search=native={}", folder.display());
    println!("cargo::rustc-link-lib=static=melontime");
}
