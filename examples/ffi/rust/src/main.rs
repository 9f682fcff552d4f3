//! messages FILE..: lists the messages of each file with the first line of their comments.

mod protox;

use std::collections::HashMap;

fn varint(bytes: &mut &[u8]) -> u64 {
    let (mut value, mut shift) = (0, 0);
    while let Some((first, rest)) = bytes.split_first() {
        *bytes = rest;
        value |= u64::from(first & 0x7f) << shift;
        shift += 7;
        if first & 0x80 == 0 || shift > 63 {
            break;
        }
    }
    value
}

/// The parts of a message that have this number: texts, messages and numbers in a row.
fn parts(mut bytes: &[u8], number: u64) -> Vec<&[u8]> {
    let mut found = Vec::new();
    while !bytes.is_empty() {
        let header = varint(&mut bytes);
        let len = match header & 7 {
            0 => {
                varint(&mut bytes);
                continue;
            }
            1 => 8,
            _ => varint(&mut bytes) as usize,
        };
        let (front, rest) = bytes.split_at(len.min(bytes.len()));
        if header >> 3 == number {
            found.push(front);
        }
        bytes = rest;
    }
    found
}

fn first(bytes: &[u8], number: u64) -> &[u8] {
    parts(bytes, number).first().copied().unwrap_or_default()
}

fn text(bytes: &[u8]) -> String {
    String::from_utf8_lossy(bytes).into_owned()
}

type Comments = HashMap<Vec<u64>, String>;

/// The comment that leads each path: fields 1 (path) and 3 (leading comments) of each location.
fn comments(file: &[u8]) -> Comments {
    let mut found = HashMap::new();
    for info in parts(file, 9) {
        for location in parts(info, 1) {
            let (mut path, mut numbers) = (Vec::new(), first(location, 1));
            while !numbers.is_empty() {
                path.push(varint(&mut numbers));
            }
            found.insert(path, text(first(location, 3)));
        }
    }
    found
}

/// Messages (field `number` of what holds them), and those within them (field 3).
fn list(holder: &[u8], number: u64, path: &[u64], front: &str, comments: &Comments) {
    for (index, message) in parts(holder, number).into_iter().enumerate() {
        let path = [path, &[number, index as u64]].concat();
        let name = format!("{front}{}", text(first(message, 1)));
        let comment = comments.get(&path).map(|it| it.trim()).unwrap_or_default();
        println!("{name}: {}", comment.lines().next().unwrap_or_default());
        list(message, 3, &path, &format!("{name}."), comments);
    }
}

fn show(name: &str) -> Result<(), String> {
    let source = std::fs::read_to_string(name).map_err(|error| format!("{name}: {error}"))?;
    match protox::parse(name, &source) {
        Ok(file) => {
            list(&file, 4, &[], "", &comments(&file));
            Ok(())
        }
        Err(protox::Failure::Refused(faults)) => {
            let line = |fault: &protox::Fault| {
                format!("{name}:{}:{}: {}", fault.line + 1, fault.column + 1, fault.message)
            };
            Err(faults.iter().map(line).collect::<Vec<_>>().join("\n"))
        }
        Err(protox::Failure::NoAnswer) => Err(format!("{name}: it is too large for the memory")),
    }
}

fn main() {
    let mut status = 0;
    for name in std::env::args().skip(1) {
        if let Err(complaint) = show(&name) {
            eprintln!("{complaint}");
            status = 1;
        }
    }
    std::process::exit(status);
}
