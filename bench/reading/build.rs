// Links the static library that `command/proved lines_c` writes, from this checkout or from the folder that LIBRARY names.
fn main() {
    let root = std::env::var("CARGO_MANIFEST_DIR").unwrap();
    let folder = std::env::var("LIBRARY").unwrap_or(format!("{root}/../../target/staticlib"));
    println!("cargo:rustc-link-search=native={folder}");
    println!("cargo:rustc-link-lib=static=lines_c");
    println!("cargo:rerun-if-changed={folder}/liblines_c.a");
    println!("cargo:rerun-if-env-changed=LIBRARY");
}
