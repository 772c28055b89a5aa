//! Where the static library lies: ../crates/furqyzet_c/out, or the folder that FURQYZET_C names.

fn main() {
    let folder = std::env::var("FURQYZET_C").unwrap_or(format!("{}/../crates/furqyzet_c/out", env!("CARGO_MANIFEST_DIR")));
    println!("cargo:rustc-link-search=native={folder}");
    println!("cargo:rerun-if-env-changed=FURQYZET_C");
    println!("cargo:rerun-if-changed={folder}/libfurqyzet_c.a");
}
