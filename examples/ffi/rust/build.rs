// PROTOX_LIBRARIES: the folders with libprotox_ffi.a and liblibc_c.a, with `:` between them.
fn main() {
    let folders = std::env::var("PROTOX_LIBRARIES").expect("PROTOX_LIBRARIES is not set");
    println!("cargo:rerun-if-env-changed=PROTOX_LIBRARIES");
    for folder in folders.split(':') {
        println!("cargo:rustc-link-search=native={folder}");
    }
    println!("cargo:rustc-link-lib=static=protox_ffi");
    println!("cargo:rustc-link-lib=static=libc_c");
}
