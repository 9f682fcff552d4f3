//! link FILE..: links files, and says how many bytes their set takes, or what is wrong.

#[path = "../protox.rs"]
mod protox;

use protox::{link, LinkFailure};

fn tell(files: &[(&str, &str)]) -> i32 {
    match link(files) {
        Ok(set) => {
            println!("{} files, {} bytes", files.len(), set.len());
            0
        }
        Err(LinkFailure::Refused(faults)) => {
            for told in &faults {
                let (name, fault) = (files[told.file].0, &told.fault);
                println!("{name}:{}:{}: {}", fault.line + 1, fault.column + 1, fault.message);
            }
            1
        }
        Err(LinkFailure::NoAnswer) => {
            eprintln!("the files are too large for the memory");
            2
        }
    }
}

fn main() -> std::io::Result<()> {
    let names: Vec<String> = std::env::args().skip(1).collect();
    let read = |name: &String| std::fs::read_to_string(name);
    let sources = names.iter().map(read).collect::<Result<Vec<_>, _>>()?;
    let given = names.iter().zip(&sources);
    let files: Vec<(&str, &str)> = given.map(|(name, source)| (&name[..], &source[..])).collect();
    std::process::exit(tell(&files));
}
