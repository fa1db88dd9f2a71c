//! Links the static library of the proved crates, and the few lines of C through which it asks for memory. `run` sets where they lie.

fn main() {
    println!("cargo:rerun-if-env-changed=ALIKE_C");
    println!("cargo:rerun-if-env-changed=KIT_C");
    let [library, kit] =
        ["ALIKE_C", "KIT_C"].map(|name| std::env::var(name).unwrap_or_else(|_| panic!("{name} is not set")));
    println!("cargo:rerun-if-changed={library}/libalike_c.a");
    println!("cargo:rustc-link-search=native={library}");
    println!("cargo:rustc-link-search=native={kit}");
    println!("cargo:rustc-link-lib=static=alike_c");
    println!("cargo:rustc-link-lib=static=libc_c");
}
