//! Links the static library that `bench/run` builds first.

fn main() {
    println!("cargo::rustc-link-search=native=../crates/export/out");
    println!("cargo::rustc-link-lib=static=export");
    println!("cargo::rerun-if-changed=../crates/export/out/libexport.a");
}
