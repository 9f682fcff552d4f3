//! Makes Rust code of files by prost-build, which runs the program that PROTOC names.
//! usage: generate FOLDER FILE..
fn main() -> std::io::Result<()> {
    let arguments: Vec<String> = std::env::args().skip(1).collect();
    prost_build::Config::new()
        .out_dir(&arguments[0])
        .compile_protos(&arguments[1..], &["."])
}
