// Where the proved library stands: `rt lib` in crates/export writes it there.
fn main() {
    let here = std::env::var("CARGO_MANIFEST_DIR").unwrap();
    let folder = std::env::var("MUITALVEK_LIB").unwrap_or(format!("{here}/../crates/export/out"));
    println!("cargo:rerun-if-env-changed=MUITALVEK_LIB");
    println!("cargo:rustc-link-search=native={folder}");
}
