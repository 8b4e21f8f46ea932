//! Links the archive that `rt lib` writes in `crates/sajowemi`.

fn main() {
    let folder = std::env::var("CARGO_MANIFEST_DIR").unwrap();
    println!("cargo::rustc-link-search=native={folder}/../crates/sajowemi/out");
    println!("cargo::rustc-link-lib=static=sajowemi");
    println!("cargo::rerun-if-changed=../crates/sajowemi/out/libsajowemi.a");
}
