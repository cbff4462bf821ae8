//! Links the proved engine, which `rt lib` builds in `crates/bridge`.

fn main() {
    let built = concat!(env!("CARGO_MANIFEST_DIR"), "/../crates/bridge/out");
    println!("cargo:rustc-link-search=native={built}");
    println!("cargo:rustc-link-lib=static=bridge");
    println!("cargo:rerun-if-changed={built}/libbridge.a");
}
