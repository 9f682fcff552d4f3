//! The calls from outside. The expected bytes follow the wire format of protobuf by hand.
use protox_ffi::{link, parse, Failure, LinkFailure};

#[test]
fn accepted() {
    let bytes = parse("a.proto", "message A {}\n").ok().expect("it is accepted");
    // Field 1 (name) is a text of 7 bytes. Field 4 is a message, whose field 1 is its name.
    assert_eq!(&bytes[..9], b"\x0a\x07a.proto");
    assert_eq!(&bytes[9..14], b"\x22\x03\x0a\x01A");
}

#[test]
fn refused() {
    let source = "message A { optional int32 b = 0; }";
    let faults = match parse("a.proto", source) {
        Err(Failure::Refused(faults)) => faults,
        _ => panic!("it is not refused"),
    };
    assert_eq!((faults.len(), faults[0].line, faults[0].column), (1, 0, 31));
    assert_eq!(faults[0].message, "message numbers must be between 1 and 536870911");
}

#[test]
fn linked() {
    let files = [
        ("a.proto", "import \"b.proto\"; message A { optional B b = 1; }"),
        ("b.proto", "message B {}"),
    ];
    let bytes = link(&files).ok().expect("they are linked");
    // Field 1 is a file, whose field 1 is its name: b.proto comes first.
    assert_eq!((bytes[0], &bytes[2..11]), (10, &b"\x0a\x07b.proto"[..]));
}

#[test]
fn not_linked() {
    let files = [("a.proto", "message A {}"), ("b.proto", "message B {\n optional A b = 1;\n}")];
    let faults = match link(&files) {
        Err(LinkFailure::Refused(faults)) => faults,
        _ => panic!("they are not refused"),
    };
    let fault = &faults[0].fault;
    assert_eq!((faults.len(), faults[0].file, fault.line, fault.column), (1, 1, 1, 10));
    assert!(fault.message.starts_with("\"A\" seems to be defined in \"a.proto\""));
}
