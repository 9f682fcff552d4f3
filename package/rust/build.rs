// Links the static library that comes with the crate. It is for Linux on x86-64.
fn main() {
    let folder = std::env::var("CARGO_MANIFEST_DIR").expect("cargo sets it");
    println!("cargo:rerun-if-changed=native/libprotox.a");
    println!("cargo:rustc-link-search=native={folder}/native");
    println!("cargo:rustc-link-lib=static=protox");
}
