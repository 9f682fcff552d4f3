//! A safe wrapper of the C library.
// A program may use a part of it.
#![allow(dead_code)]

type Call =
    unsafe extern "C" fn(*const u8, usize, *const u8, usize, *mut u8, usize, *mut usize) -> u32;

#[rustfmt::skip]
extern "C" {
    fn protox_parse_to_descriptor(
        name: *const u8, name_len: usize, source: *const u8, source_len: usize,
        out: *mut u8, out_capacity: usize, out_len: *mut usize) -> u32;
    fn protox_report(
        name: *const u8, name_len: usize, source: *const u8, source_len: usize,
        out: *mut u8, out_capacity: usize, out_len: *mut usize) -> u32;
    fn protox_link(
        files: *const File, n: usize,
        out: *mut u8, out_capacity: usize, out_len: *mut usize) -> u32;
    fn protox_link_with_options(
        files: *const File, n: usize,
        out: *mut u8, out_capacity: usize, out_len: *mut usize) -> u32;
}

type LinkCall = unsafe extern "C" fn(*const File, usize, *mut u8, usize, *mut usize) -> u32;

/// `struct protox_file`
#[repr(C)]
struct File {
    name: *const u8,
    name_len: usize,
    source: *const u8,
    source_len: usize,
}

/// What is wrong. Line and column are from 0.
pub struct Fault {
    pub line: u32,
    pub column: u32,
    pub message: String,
}

pub enum Failure {
    Refused(Vec<Fault>),
    /// Memory ran out, or the answer takes 2 GiB or more.
    NoAnswer,
}

/// What is wrong with a file that was given to `link`.
pub struct FileFault {
    /// The index of the file.
    pub file: usize,
    pub fault: Fault,
}

pub enum LinkFailure {
    Refused(Vec<FileFault>),
    /// Memory ran out, or the answer takes 2 GiB or more.
    NoAnswer,
}

fn call(call: Call, name: &str, source: &str, room: usize) -> (u32, Vec<u8>) {
    let (mut out, mut len) = (vec![0; room], 0);
    let (n, s) = (name.as_bytes(), source.as_bytes());
    // SAFETY: each pointer goes with the length of what it points to, and no two overlap.
    let status = unsafe {
        call(n.as_ptr(), n.len(), s.as_ptr(), s.len(), out.as_mut_ptr(), room, &mut len)
    };
    if status == 3 {
        return self::call(call, name, source, len);
    }
    out.truncate(len);
    (status, out)
}

fn number(bytes: &mut &[u8]) -> u32 {
    let (front, rest) = bytes.split_at(4);
    *bytes = rest;
    u32::from_le_bytes(front.try_into().expect("four bytes"))
}

fn text(bytes: &mut &[u8]) -> String {
    let len = number(bytes) as usize;
    let (front, rest) = bytes.split_at(len);
    *bytes = rest;
    String::from_utf8_lossy(front).into_owned()
}

fn fault(bytes: &mut &[u8]) -> Fault {
    let [_kind, _start, _end, line, column] = [(); 5].map(|()| number(bytes));
    let [message, _label, _help] = [(); 3].map(|()| text(bytes));
    for _ in 0..number(bytes) {
        let _place = [(); 4].map(|()| number(bytes));
        let _label = text(bytes);
    }
    Fault { line, column, message }
}

/// The bytes of the FileDescriptorProto of a file, or why there are none.
pub fn parse(name: &str, source: &str) -> Result<Vec<u8>, Failure> {
    let (status, bytes) = call(protox_parse_to_descriptor, name, source, 8 * source.len() + 65536);
    match status {
        0 => return Ok(bytes),
        1 => {}
        _ => return Err(Failure::NoAnswer),
    }
    let (status, records) = call(protox_report, name, source, 65536);
    let (mut rest, mut faults) = (records.as_slice(), Vec::new());
    while !rest.is_empty() {
        faults.push(fault(&mut rest));
    }
    Err(if status == 1 { Failure::Refused(faults) } else { Failure::NoAnswer })
}

fn link_call(call: LinkCall, files: &[File], room: usize) -> (u32, Vec<u8>) {
    let (mut out, mut len) = (vec![0; room], 0);
    // SAFETY: each pointer goes with the length of what it points to, and `out` overlaps none.
    let status = unsafe {
        call(files.as_ptr(), files.len(), out.as_mut_ptr(), room, &mut len)
    };
    if status == 3 {
        return link_call(call, files, len);
    }
    out.truncate(len);
    (status, out)
}

fn linked(call: LinkCall, files: &[(&str, &str)]) -> Result<Vec<u8>, LinkFailure> {
    let lens = files.iter().map(|(_, source)| source.len());
    let room = 8 * lens.sum::<usize>() + 65536;
    let file = |(name, source): &(&str, &str)| File {
        name: name.as_ptr(),
        name_len: name.len(),
        source: source.as_ptr(),
        source_len: source.len(),
    };
    let (status, bytes) = link_call(call, &files.iter().map(file).collect::<Vec<_>>(), room);
    match status {
        0 => return Ok(bytes),
        1 => {}
        _ => return Err(LinkFailure::NoAnswer),
    }
    let (mut rest, mut faults) = (bytes.as_slice(), Vec::new());
    while !rest.is_empty() {
        let file = number(&mut rest) as usize;
        faults.push(FileFault { file, fault: fault(&mut rest) });
    }
    Err(LinkFailure::Refused(faults))
}

/// The bytes of the FileDescriptorSet of files, each with its name and its source, in which all
/// names are resolved; or what is wrong with them. Give each file that one of them imports.
pub fn link(files: &[(&str, &str)]) -> Result<Vec<u8>, LinkFailure> {
    linked(protox_link, files)
}

/// The same, with what their options set, as protoc has it. Give google/protobuf/descriptor.proto,
/// too, which says what options there are.
pub fn link_with_options(files: &[(&str, &str)]) -> Result<Vec<u8>, LinkFailure> {
    linked(protox_link_with_options, files)
}
