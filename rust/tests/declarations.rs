//! The header and `ffi` declare what the proved source exports, and nothing else: names, arguments, types; and the
//! header has the numbers of the crate.

use std::{collections::BTreeSet, fs, path::Path};
use togbefulo::{Kind, Refusal, TABLE_WORDS};

fn read(path: &Path) -> String {
    fs::read_to_string(path).unwrap_or_else(|why| panic!("{}: {why}", path.display()))
}

fn folder() -> &'static Path {
    Path::new(env!("CARGO_MANIFEST_DIR"))
}

/// `NAME(ARGUMENT: TYPE, ..) -> TYPE`, with Rust's types.
fn declaration(name: &str, arguments: &[String], result: &str) -> String {
    format!("{}({}) -> {}", name.trim(), arguments.join(", "), result)
}

/// The declarations that begin with this, in Rust and in Rattle. A result's type ends at one of these signs.
fn declared(text: &str, start: &str, ends: &[char], argument: fn(&str) -> String) -> Vec<String> {
    let behind = text.split(start).skip(1);
    let one = |text: &str| {
        let (name, rest) = text.split_once('(').expect("arguments");
        let (arguments, rest) = rest.split_once(')').expect("their end");
        let result = rest.trim_start().strip_prefix("->").expect("a result");
        let result = result.trim_start().split(ends).next().expect("a type");
        let arguments = arguments.split(',').map(str::trim);
        let arguments = arguments.filter(|argument| !argument.is_empty());
        declaration(name, &arguments.map(argument).collect::<Vec<_>>(), result)
    };
    behind.map(one).collect()
}

/// A slice of Rattle is a pointer and a length; an array that is lent is a pointer to it.
fn rattle_argument(argument: &str) -> String {
    let (name, kind) = argument.split_once(':').expect("a type");
    let (lent, pointer) = match kind.trim() {
        kind if kind.starts_with("&mut ") => (&kind[5..], "*mut"),
        kind if kind.starts_with('&') => (&kind[1..], "*const"),
        kind => return format!("{name}: {kind}"),
    };
    match lent.trim_matches(['[', ']']) {
        array if array.contains(';') => format!("{name}: {pointer} [{array}]"),
        element => format!("{name}: {pointer} {element}, {name}_len: usize"),
    }
}

fn c_type(name: &str) -> &str {
    match name {
        "uint32_t" => "u32",
        "uint16_t" => "u16",
        "size_t" => "usize",
        "float" => "f32",
        "bool" => "bool",
        other => panic!("{other} is no type of the header"),
    }
}

fn c_argument(argument: &str) -> String {
    let (constant, argument) = match argument.strip_prefix("const ") {
        Some(argument) => (true, argument),
        None => (false, argument),
    };
    let (kind, name) = argument.split_once(' ').expect("a type and a name");
    let kind = c_type(kind);
    let pointer = if constant { "*const" } else { "*mut" };
    if let Some(name) = name.strip_prefix('*') {
        return format!("{name}: {pointer} {kind}");
    }
    if let Some((name, length)) = name.split_once('[') {
        let length = length.trim_start_matches("TOGBEFULO_AT_LEAST ");
        let length = length.trim_end_matches(']');
        return format!("{name}: {pointer} [{kind}; {length}]");
    }
    format!("{name}: {kind}")
}

/// A header without its comments and what is for the preprocessor.
fn c_code(header: &str) -> String {
    let behind_comment = |text: &str| text.split_once("*/").map(|(_, code)| code.to_owned());
    let (first, rest) = header.split_once("/*").expect("a comment");
    let code = rest.split("/*").map(|part| behind_comment(part).unwrap());
    let code = first.to_owned() + &code.collect::<String>();
    let lines = code.lines().filter(|line| !line.starts_with('#'));
    lines.collect::<Vec<_>>().join("\n")
}

/// The declarations of the header; what it defines itself is left out.
fn c_declared(header: &str) -> Vec<String> {
    let code = c_code(header);
    let statements = code.split([';', '{', '}']).map(str::trim);
    let calls = statements.filter(|statement| {
        let from = ["uint32_t togbefulo_", "bool togbefulo_", "float togbefulo_"];
        from.iter().any(|start| statement.starts_with(start))
    });
    let one = |call: &str| {
        let (head, arguments) = call.split_once('(').expect("arguments");
        let (result, name) = head.split_once(' ').expect("a result and a name");
        let arguments = arguments.trim_end_matches(')').split(',').map(str::trim);
        let arguments: Vec<String> = arguments.map(c_argument).collect();
        declaration(name, &arguments, c_type(result))
    };
    calls.map(one).collect()
}

/// All of a list, none of them twice.
fn set_of(list: Vec<String>) -> BTreeSet<String> {
    let count = list.len();
    let set: BTreeSet<String> = list.into_iter().collect();
    assert_eq!(set.len(), count, "a declaration stands twice");
    set
}

fn exported() -> BTreeSet<String> {
    let source = folder().join("../crates/togbefulo/src");
    let files = fs::read_dir(&source).expect("the proved source");
    let texts = files.map(|file| read(&file.expect("a file of it").path()));
    let start = "#[unsafe(no_mangle)]\npub extern \"C\" fn ";
    let exported = texts.flat_map(|text| declared(&text, start, &['\n', ' '], rattle_argument));
    set_of(exported.collect())
}

#[test]
fn the_header_has_what_is_exported() {
    let header = read(&folder().join("../include/togbefulo.h"));
    assert_eq!(set_of(c_declared(&header)), exported());
    println!("{} declarations of the header compared", exported().len());
}

#[test]
fn ffi_has_what_is_exported() {
    let ffi = read(&folder().join("src/ffi.rs"));
    let plain = |argument: &str| argument.to_owned();
    let (block, _) = ffi.split_once("\n}\n").expect("the end of the block");
    let declarations = declared(block, "    pub fn ", &[';'], plain);
    assert_eq!(set_of(declarations), exported());
    println!("{} declarations of ffi compared", exported().len());
}

/// `CurveNotFinite` is `CURVE_NOT_FINITE` in C.
fn c_name(name: String) -> String {
    let separated = |letter: char| match letter.is_uppercase() {
        true => format!("_{letter}"),
        false => letter.to_ascii_uppercase().to_string(),
    };
    "TOGBEFULO".to_owned() + &name.chars().map(separated).collect::<String>()
}

#[test]
fn the_header_has_the_numbers_of_kinds_and_refusals() {
    let header = read(&folder().join("../include/togbefulo.h"));
    let refusals = Refusal::ALL.map(|one| (format!("{one:?}"), one.number()));
    let kinds = Kind::ALL.map(|one| (format!("{one:?}"), one.number()));
    for (name, number) in refusals.into_iter().chain(kinds) {
        let line = format!("\n#define {} {number}u\n", c_name(name));
        assert!(header.contains(&line), "{line}");
    }
    let words = format!("\n#define TOGBEFULO_TABLE_WORDS {TABLE_WORDS}u ");
    assert!(header.contains(&words), "{words}");
}
