// Links the static library that `command/proved formula_c` writes.
fn main() {
    let root = std::env::var("CARGO_MANIFEST_DIR").unwrap();
    let folder = format!("{root}/../../target/staticlib");
    println!("cargo:rustc-link-search=native={folder}");
    println!("cargo:rustc-link-lib=static=formula_c");
    println!("cargo:rerun-if-changed={folder}/libformula_c.a");
}
