//! Tells the linker where the archive of the C interface is: MOCHASPIT_LIB, or the repository's crates/capi/out.
fn main() {
    println!("cargo:rerun-if-env-changed=MOCHASPIT_LIB");
    let default = concat!(env!("CARGO_MANIFEST_DIR"), "/../../crates/capi/out");
    let dir = std::env::var("MOCHASPIT_LIB").unwrap_or_else(|_| default.to_string());
    println!("cargo:rustc-link-search=native={dir}");
    println!("cargo:rerun-if-changed={dir}/libcapi.a");
}
