//! The constants, reply structs and declarations of this crate against those of
//! include/cabinet.h. The compiler cannot see the header, and a declaration that
//! differs from it would be undefined behaviour, not an error.

use std::collections::BTreeMap;
use std::fs;
use std::path::Path;

fn source(path: &str) -> String {
    let path = Path::new(env!("CARGO_MANIFEST_DIR")).join(path);
    fs::read_to_string(&path).unwrap_or_else(|error| panic!("{}: {error}", path.display()))
}

/// The header without its comments.
fn header() -> String {
    let text = source("../../include/cabinet.h");
    let mut plain = String::new();
    for part in text.split("/*") {
        plain += part.split_once("*/").map_or(part, |(_, after)| after);
    }
    plain
}

fn words(text: &str) -> String {
    text.split_whitespace().collect::<Vec<_>>().join(" ")
}

/// `#define CABINET_NAME VALUE` as name and value.
fn header_constants() -> BTreeMap<String, String> {
    let define = |line: &str| {
        let (name, value) = line.strip_prefix("#define CABINET_")?.split_once(' ')?;
        Some((name.to_string(), value.trim().to_string()))
    };
    header().lines().filter_map(define).collect()
}

/// `pub const NAME: TYPE = VALUE;` as name and value.
fn crate_constants() -> BTreeMap<String, String> {
    let constant = |line: &str| {
        let (name, rest) = line.strip_prefix("pub const ")?.split_once(':')?;
        let value = rest.split_once("= ")?.1.strip_suffix(';')?;
        Some((name.to_string(), value.to_string()))
    };
    source("src/layout.rs").lines().filter_map(constant).collect()
}

#[test]
fn the_constants_are_the_headers() {
    let constants = header_constants();
    assert_eq!(constants.get("NODE_WORDS").map(String::as_str), Some("336"));
    assert_eq!(crate_constants(), constants);
}

/// A C type and name, as Rust writes them: "const uint64_t *table" is
/// "table: *const u64".
fn in_rust(declared: &str) -> String {
    let (kind, name) = declared.trim().rsplit_once(' ').expect("a type and a name");
    let (name, length) = match name.strip_suffix(']').and_then(|name| name.split_once('[')) {
        Some((name, length)) => (name, Some(length)),
        None => (name, None),
    };
    let (constant, kind) = match kind.strip_prefix("const ") {
        Some(kind) => ("*const ", kind),
        None => ("*mut ", kind),
    };
    let kind = rust_type(kind);
    match (name.strip_prefix('*'), length) {
        (Some(name), None) => format!("{name}: {constant}{kind}"),
        (None, Some(length)) => format!("{name}: [{kind}; {length}]"),
        (None, None) => format!("{name}: {kind}"),
        (Some(_), Some(_)) => panic!("an array of pointers: {declared}"),
    }
}

fn rust_type(kind: &str) -> &str {
    match kind {
        "uint64_t" => "u64",
        "uint8_t" => "u8",
        "size_t" => "usize",
        "cabinet_reply" => "Reply",
        "cabinet_number_reply" => "NumberReply",
        "cabinet_report_reply" => "ReportReply",
        "cabinet_close_reply" => "CloseReply",
        "cabinet_record_reply" => "RecordReply",
        other => panic!("a type that the header did not have: {other}"),
    }
}

/// Each function of the header as Rust declares it.
fn header_functions() -> Vec<String> {
    let text = words(&header());
    let mut found = Vec::new();
    for statement in text.split(';') {
        let Some((head, parameters)) = statement.trim().strip_suffix(')').and_then(|all| all.split_once('('))
        else {
            continue;
        };
        let head = head.rsplit("} ").next().expect("what follows the last brace");
        let (reply, name) = head.rsplit_once(' ').expect("a type and a name");
        let reply = reply.rsplit(' ').next().expect("the type alone");
        let parameters: Vec<String> = parameters.split(',').map(in_rust).collect();
        found.push(format!("fn {name}({}) -> {}", parameters.join(", "), rust_type(reply)));
    }
    found
}

/// The functions between `extern "C" {` and the first closing brace.
fn crate_functions() -> Vec<String> {
    let text = source("src/ffi.rs");
    let block = text.split_once("extern \"C\" {").expect("the extern block").1;
    let block = block.split_once("\n}").expect("its end").0;
    block.split(';').map(words).filter(|function| !function.is_empty()).collect()
}

#[test]
fn the_functions_are_the_headers() {
    let functions = header_functions();
    assert_eq!(functions.len(), 16);
    assert_eq!(functions[0], "fn cabinet_check_table(table: *const u64, table_words: usize) -> Reply");
    assert_eq!(crate_functions(), functions);
}

/// Each reply struct of the header, by its Rust name, with its fields in order.
fn header_structs() -> BTreeMap<String, Vec<String>> {
    let text = words(&header());
    let mut found = BTreeMap::new();
    for part in text.split("typedef struct {").skip(1) {
        let (fields, after) = part.split_once('}').expect("the end of a struct");
        let name = after.split_once(';').expect("its name").0.trim();
        let fields = fields.split(';').map(str::trim).filter(|field| !field.is_empty());
        found.insert(rust_type(name).to_string(), fields.map(in_rust).collect());
    }
    found
}

fn crate_structs() -> BTreeMap<String, Vec<String>> {
    let text = source("src/ffi.rs");
    let mut found = BTreeMap::new();
    for part in text.split("#[repr(C)]").skip(1) {
        let (_, part) = part.split_once("pub struct ").expect("a struct");
        let (name, part) = part.split_once(" {").expect("its fields");
        let (fields, _) = part.split_once('}').expect("its end");
        let field = |line: &str| line.trim().strip_prefix("pub ")?.strip_suffix(',').map(str::to_string);
        found.insert(name.to_string(), fields.lines().filter_map(field).collect());
    }
    found
}

#[test]
fn the_reply_structs_are_the_headers() {
    let structs = header_structs();
    assert_eq!(structs.len(), 5);
    assert_eq!(structs["Reply"], ["refusal: u64", "value: u64"]);
    assert_eq!(crate_structs(), structs);
}
