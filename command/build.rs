// Links the static library that `command/proved ferat_c` writes, and hands on the name of the sources (command/build).
fn main() {
    let root = std::env::var("CARGO_MANIFEST_DIR").unwrap();
    let folder = format!("{root}/../target/staticlib");
    println!("cargo:rustc-link-search=native={folder}");
    println!("cargo:rustc-link-lib=static=ferat_c");
    println!("cargo:rerun-if-changed={folder}/libferat_c.a");
    println!("cargo:rerun-if-env-changed=HUTSVIDA_SOURCES");
}
