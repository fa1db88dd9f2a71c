//! Links the proved code: `ALIKE_C` names its static library, `KIT_C` the folder of the kit's C libraries, one of which it stands on.

use std::env;
use std::path::PathBuf;

fn told(name: &str) -> PathBuf {
    println!("cargo:rerun-if-env-changed={name}");
    env::var_os(name).unwrap_or_else(|| panic!("{name} is not set: use the script `run`")).into()
}

fn main() {
    let (library, kit) = (told("ALIKE_C"), told("KIT_C"));
    println!("cargo:rerun-if-changed={}", library.display());
    for folder in [library.parent().expect("the library stands in a folder"), &kit] {
        println!("cargo:rustc-link-search=native={}", folder.display());
    }
    println!("cargo:rustc-link-lib=static=alike_c");
    println!("cargo:rustc-link-lib=static=libc_c");
}
