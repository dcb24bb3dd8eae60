//! The declarations of the boundary, which stand three times: in the sources of Rattle, in calls.rs and in the header
//! for C. The texts are held against each other and against the boundary's version, the compiler's layout against the
//! numbers, and calls with a number of its own in every field against what comes back.

mod common;

use common::layouts;
use sindovaleph::calls::{self, *};
use std::collections::BTreeMap;
use std::fs;
use std::path::{Path, PathBuf};

/// Names and types, one after the other.
type Named = Vec<(String, String)>;

/// A function: its parameters and its answer.
#[derive(Debug, PartialEq, Eq)]
struct Function {
    parameters: Named,
    answer: String,
}

type Structs = BTreeMap<String, Named>;
type Functions = BTreeMap<String, Function>;

// The name that the length of a slice gets in all three, as it has none in Rattle.
const LENGTH: &str = "(length)";

fn here(path: &str) -> PathBuf {
    Path::new(env!("CARGO_MANIFEST_DIR")).join(path)
}

fn text_of(path: &Path) -> String {
    fs::read_to_string(path).unwrap_or_else(|error| panic!("{}: {error}", path.display()))
}

/// A text of Rust or of Rattle without its comments.
fn without_comments(text: &str) -> String {
    text.lines().map(|line| line.split("//").next().unwrap_or("")).collect::<Vec<_>>().join("\n")
}

/// A text of C without comments and without lines for the preprocessor.
fn without_c_comments(text: &str) -> String {
    let code: String = text.split("/*").map(|piece| piece.split_once("*/").map_or(piece, |(_, code)| code)).collect();
    code.lines().filter(|line| !line.starts_with('#')).collect::<Vec<_>>().join("\n")
}

/// The text between two others, and what comes behind it.
fn between<'a>(text: &'a str, from: &str, to: &str) -> Option<(&'a str, &'a str)> {
    text.split_once(from)?.1.split_once(to)
}

fn one_line(text: &str) -> String {
    text.split_whitespace().collect::<Vec<_>>().join(" ")
}

/// `name: type, ..` as Rust and Rattle write it.
fn named(list: &str) -> Named {
    let entry = |entry: &str| {
        let (name, kind) = entry.split_once(':')?;
        Some((name.trim().trim_start_matches("pub ").to_string(), one_line(kind)))
    };
    list.split(',').filter_map(entry).collect()
}

/// The structs behind `#[repr(C)]`.
fn structs_of(text: &str) -> Structs {
    let text = without_comments(text);
    let one = |piece: &str| {
        let (name, _) = between(piece, "pub struct ", "{")?;
        let (fields, _) = between(piece, "{", "}")?;
        Some((name.trim().to_string(), named(fields)))
    };
    text.split("#[repr(C)]").skip(1).filter_map(one).collect()
}

/// The functions that are declared behind each `opening`.
fn functions_of(text: &str, opening: &str) -> Functions {
    let text = without_comments(text);
    let one = |piece: &str| {
        let (name, rest) = piece.split_once('(')?;
        let (parameters, rest) = rest.split_once(')')?;
        let answer = rest.trim_start().strip_prefix("->")?.split([';', '{']).next()?;
        let answer = answer.split_whitespace().next()?.to_string();
        Some((format!("sindovaleph_{name}"), Function { parameters: named(parameters), answer }))
    };
    text.split(opening).skip(1).filter_map(one).collect()
}

/// How a parameter of Rattle crosses: a slice as a pointer and a length.
fn crosses((name, kind): (String, String)) -> Named {
    let slice = |start: &str| kind.strip_prefix(start)?.strip_suffix(']').map(str::to_string);
    let pointer = match (slice("&["), slice("&mut [")) {
        (Some(element), _) => format!("*const {element}"),
        (None, Some(element)) => format!("*mut {element}"),
        (None, None) => return vec![(name, kind)],
    };
    vec![(name, pointer), (LENGTH.to_string(), "usize".to_string())]
}

/// A number of elements behind a pointer is a length, whatever its name.
fn with_lengths(mut functions: Functions) -> Functions {
    for function in functions.values_mut() {
        for i in 1..function.parameters.len() {
            if function.parameters[i - 1].1.starts_with('*') {
                assert_eq!(function.parameters[i].1, "usize", "behind a pointer comes its length: {function:?}");
                function.parameters[i].0 = LENGTH.to_string();
            }
        }
    }
    functions
}

/// All sources of the crates of Rattle whose names begin so.
fn sources(crates: &str) -> Vec<String> {
    let mut texts = Vec::new();
    for entry in fs::read_dir(here("../crates")).expect("the crates stand beside this one").flatten() {
        if !entry.file_name().to_string_lossy().starts_with(crates) {
            continue;
        }
        for file in fs::read_dir(entry.path().join("src")).into_iter().flatten().flatten() {
            if file.path().extension().is_some_and(|extension| extension == "rt") {
                texts.push(text_of(&file.path()));
            }
        }
    }
    texts
}

fn rattle_structs() -> Structs {
    sources("").iter().flat_map(|text| structs_of(text)).collect()
}

fn rattle_functions() -> Functions {
    let exports = |text: &String| functions_of(text, "pub extern \"C\" fn sindovaleph_");
    let mut functions: Functions = sources("sindovaleph").iter().flat_map(exports).collect();
    for function in functions.values_mut() {
        function.parameters = std::mem::take(&mut function.parameters).into_iter().flat_map(crosses).collect();
    }
    functions
}

fn rust_structs() -> Structs {
    structs_of(&text_of(&here("src/calls.rs")))
}

fn rust_functions() -> Functions {
    with_lengths(functions_of(&text_of(&here("src/calls.rs")), "fn sindovaleph_"))
}

/// A type of C by its name in Rust.
fn from_c(kind: &str) -> String {
    match kind {
        "size_t" => "usize",
        "bool" => "bool",
        "uint8_t" => "u8",
        "uint16_t" => "u16",
        "uint32_t" => "u32",
        "int32_t" => "i32",
        _ => kind.strip_prefix("Sindovaleph").unwrap_or_else(|| panic!("{kind} is in no declaration")),
    }
    .to_string()
}

/// `type name`, `type *name` or `const type *name`.
fn c_parameter(text: &str) -> (String, String) {
    let text = one_line(text);
    let (kind, name) = text.rsplit_once(' ').unwrap_or_else(|| panic!("{text} has a type and a name"));
    match (name.strip_prefix('*'), kind.strip_prefix("const ")) {
        (Some(name), Some(kind)) => (name.to_string(), format!("*const {}", from_c(kind))),
        (Some(name), None) => (name.to_string(), format!("*mut {}", from_c(kind))),
        (None, _) => (name.to_string(), from_c(kind)),
    }
}

/// The header, with the name of its version in place.
fn header_text() -> String {
    let text = text_of(&here("include/sindovaleph.h"));
    let version = between(&text, "#define SINDOVALEPH_BOUNDARY ", "\n").expect("the header names its version").0;
    without_c_comments(&text).replace("SINDOVALEPH_BOUNDARY", version)
}

fn c_structs() -> Structs {
    let one = |piece: &str| {
        let (fields, rest) = between(piece, "{", "}")?;
        let name = from_c(rest.split(';').next()?.trim());
        let fields = fields.split(';').filter(|field| !field.trim().is_empty()).map(c_parameter).collect();
        Some((name, fields))
    };
    header_text().split("typedef struct").skip(1).filter_map(one).collect()
}

fn c_functions() -> Functions {
    let one = |declaration: &str| {
        let (start, rest) = declaration.split_once('(')?;
        // A variable of the header's own, which refers to a function.
        if start.trim().starts_with("static ") {
            return None;
        }
        let (answer, name) = start.trim().rsplit_once(char::is_whitespace)?;
        let answer = from_c(answer.split_whitespace().next_back()?);
        let parameters = rest.split_once(')')?.0.split(',').filter(|one| *one != "void").map(c_parameter).collect();
        Some((name.to_string(), Function { parameters, answer }))
    };
    with_lengths(header_text().split(';').filter_map(one).collect())
}

/// Everything that one side has, the other has too, and alike.
fn assert_each_stands<T: PartialEq + std::fmt::Debug>(of: &BTreeMap<String, T>, among: &BTreeMap<String, T>) {
    let missing: Vec<_> = of.keys().filter(|name| !among.contains_key(*name)).collect();
    assert!(missing.is_empty(), "missing: {missing:?}");
    for (name, one) in of {
        assert_eq!(Some(one), among.get(name), "{name}");
    }
}

#[test]
fn the_declarations_are_found() {
    assert_eq!(rust_structs().len(), 17);
    assert_eq!(rust_functions().len(), 40);
    assert!(rattle_structs().len() >= 5 && rattle_functions().len() >= 22, "the parser finds what stands there");
}

#[test]
fn each_struct_of_the_sources_is_declared() {
    assert_each_stands(&rattle_structs(), &rust_structs());
}

#[test]
fn each_declared_struct_stands_in_the_sources() {
    let mut declared = rust_structs();
    // Rows cross as numbers.
    declared.retain(|name, _| !["Row", "ReadRow", "WriteRow"].contains(&name.as_str()));
    assert_each_stands(&declared, &rattle_structs());
}

#[test]
fn each_export_of_the_sources_is_declared() {
    assert_each_stands(&rattle_functions(), &rust_functions());
}

#[test]
fn each_declared_function_is_exported_by_the_sources() {
    assert_each_stands(&rust_functions(), &rattle_functions());
}

#[test]
fn the_header_has_the_same_structs() {
    assert_each_stands(&rust_structs(), &c_structs());
    assert_each_stands(&c_structs(), &rust_structs());
}

#[test]
fn the_header_has_the_same_functions() {
    assert_each_stands(&rust_functions(), &c_functions());
    assert_each_stands(&c_functions(), &rust_functions());
}

/// The version of the boundary, by its name, and the fingerprint of what is declared under it.
const VERSION: (&str, u64) = ("sindovaleph_boundary_5", 0x549D_EDB9_9052_88F9);

const VERSION_BEGINS: &str = "sindovaleph_boundary_";

/// All that is declared besides the version, a line each.
fn declared() -> String {
    let list = |named: &Named| named.iter().map(|(name, kind)| format!("{name}: {kind}, ")).collect::<String>();
    let structs = rust_structs().into_iter().map(|(name, fields)| format!("{name} {}\n", list(&fields)));
    let mut functions = rust_functions();
    functions.retain(|name, _| !name.starts_with(VERSION_BEGINS));
    let functions = functions.into_iter().map(|(name, of)| format!("{name} {}{}\n", list(&of.parameters), of.answer));
    structs.chain(functions).collect()
}

/// FNV-1a, which is another number for another text.
fn fingerprint(text: &str) -> u64 {
    text.bytes().fold(0xCBF2_9CE4_8422_2325, |sum, byte| (sum ^ u64::from(byte)).wrapping_mul(0x0100_0000_01B3))
}

#[test]
fn the_version_is_counted_up_with_the_declarations() {
    let versions: Vec<String> = rust_functions().into_keys().filter(|name| name.starts_with(VERSION_BEGINS)).collect();
    assert_eq!(versions, [VERSION.0]);
    let number = VERSION.0.trim_start_matches(VERSION_BEGINS);
    let definition = text_of(&here("../crates/sindovaleph/specs/Boundary.antt"));
    assert!(definition.contains(&format!("\nversion = {number}\n")), "the definition has the number of the name");
    assert_eq!(env!("CARGO_PKG_VERSION_MINOR"), number, "the second number of the crate's version is the boundary's");
    let found = fingerprint(&declared());
    assert_eq!(
        found, VERSION.1,
        "what crosses the boundary has changed: count its version up, the number behind {VERSION_BEGINS} in \
         crates/sindovaleph, src/calls.rs, include/sindovaleph.h and Cargo.toml, and put it here with the fingerprint \
         {found:#X}"
    );
}

#[test]
fn rows_have_the_names_and_the_order_of_what_they_hold() {
    let structs = rust_structs();
    let names = |name: &str| structs[name].iter().map(|(field, _)| field.clone()).collect::<Vec<_>>();
    assert_eq!(names("Row"), names("Step")[2..]);
    assert_eq!(names("ReadRow"), [names("Row"), names("Value")].concat());
    assert_eq!(names("WriteRow"), ["code", "start", "len"]);
    for name in ["Row", "ReadRow", "WriteRow"] {
        assert!(structs[name].iter().all(|(_, kind)| kind == "usize"), "{name} is made of numbers");
    }
}

#[test]
fn sizes_and_offsets() {
    let expected: [(&str, usize, usize, &[usize]); 17] = [
        ("Fields", 40, 4, &[0, 4, 8, 12, 16, 20, 22, 24, 26, 28, 30, 31, 32, 33, 34, 35, 36, 37]),
        ("Field", 16, 8, &[0, 8]),
        ("Step", 32, 8, &[0, 1, 2, 8, 16, 24]),
        ("Value", 16, 8, &[0, 1, 4, 8]),
        ("Element", 12, 4, &[0, 4, 8]),
        ("Written", 16, 8, &[0, 8]),
        ("Listed", 24, 8, &[0, 1, 8, 16]),
        ("Entries", 16, 8, &[0, 8]),
        ("Row", 32, 8, &[0, 8, 16, 24]),
        ("ReadRow", 64, 8, &[0, 8, 16, 24, 32, 40, 48, 56]),
        ("WriteRow", 24, 8, &[0, 8, 16]),
        ("WrittenRows", 24, 8, &[0, 8, 16]),
        ("Route", 12, 4, &[0, 4, 8]),
        ("ReadRoute", 24, 8, &[0, 1, 2, 4, 8, 16]),
        ("RouteCount", 16, 8, &[0, 8]),
        ("Stream", 6, 2, &[0, 1, 2, 4]),
        ("Received", 32, 8, &[0, 8, 16, 24]),
    ];
    let structs = rust_structs();
    for (layout, (name, size, align, offsets)) in layouts().iter().zip(expected) {
        let found: Vec<usize> = layout.fields.iter().map(|(_, offset)| *offset).collect();
        assert_eq!((layout.name, layout.size, layout.align, &found[..]), (name, size, align, offsets));
        let names: Vec<&str> = structs[name].iter().map(|(field, _)| field.as_str()).collect();
        assert_eq!(
            layout.fields.iter().map(|(field, _)| *field).collect::<Vec<_>>(),
            names,
            "{name} has all its fields"
        );
    }
}

/// A message with a number of its own in every field: the first 44 bytes count up; then a name of 3 and a file of 5.
fn numbered_message() -> Vec<u8> {
    let mut bytes = common::message(300, &[]);
    for (i, byte) in bytes.iter_mut().enumerate().take(44) {
        *byte = i as u8 + 0x81;
    }
    bytes[44..47].copy_from_slice(b"abc");
    bytes[108..113].copy_from_slice(b"defgh");
    bytes
}

#[test]
fn the_header_crosses() {
    let mut bytes = numbered_message();
    let fields = Fields {
        xid: 0x8586_8788,
        ciaddr: 0x8D8E_8F90,
        yiaddr: 0x9192_9394,
        siaddr: 0x9596_9798,
        giaddr: 0x999A_9B9C,
        secs: 0x898A,
        flags: 0x8B8C,
        sname: 3,
        file: 5,
        chaddr_own: 16,
        refused: 0,
        op: 0x81,
        htype: 0x82,
        hlen: 0x83,
        hops: 0x84,
        chaddr_refused: 0,
        chaddr_spills: true,
        wrong_magic: false,
    };
    assert_eq!(header(&bytes), fields);
    assert_eq!(calls::xid(&bytes), Field { refused: 0, number: 0x8586_8788 });
    bytes[2] = 15;
    assert_eq!(header(&bytes), Fields { hlen: 15, chaddr_own: 15, chaddr_spills: false, ..fields });
    bytes[2] = 255;
    bytes[239] = 0;
    let cut = Fields { hlen: 255, chaddr_refused: 3, chaddr_own: 0, chaddr_spills: false, wrong_magic: true, ..fields };
    assert_eq!(header(&bytes[..282]), cut);
    let refused = header(&bytes[..239]);
    assert_eq!((refused.refused, refused.op, refused.xid, refused.wrong_magic), (1, 0, 0, false));
    assert_eq!((refused.chaddr_refused, refused.chaddr_own, refused.chaddr_spills), (0, 0, false));
    assert_eq!(calls::xid(&bytes[..239]), Field { refused: 1, number: 0 });
}

#[test]
fn the_walk_crosses() {
    // A Pad, then an option of three parts with 4 bytes, which ends at 11.
    let area = [0, 43, 1, 7, 43, 1, 8, 43, 2, 9, 10, 255];
    let mut join = [99; 6];
    assert_eq!(step(&area, 0, &mut join), Step { refused: 0, stop: 0, code: 43, parts: 3, len: 4, place: 11 });
    assert_eq!(join, [7, 8, 9, 10, 99, 99]);
    assert_eq!(step(&area, 11, &mut join), Step { refused: 0, stop: 2, code: 0, parts: 0, len: 0, place: 12 });
    assert_eq!(step(&area, 1, &mut join[..3]), Step { refused: 5, stop: 0, code: 0, parts: 0, len: 4, place: 1 });
    assert_eq!(step(&area, 13, &mut join), Step { refused: 4, stop: 0, code: 0, parts: 0, len: 0, place: 13 });
    let row = Row { code: 43, parts: 3, len: 4, place: 11 };
    let mut rows = [Row::default(); 2];
    assert_eq!(list(&area, 0, &mut rows), Listed { refused: 0, stop: 2, rows: 1, place: 12 });
    assert_eq!(rows, [row, Row::default()]);
    assert_eq!(list(&area, 0, &mut rows[..1]), Listed { refused: 0, stop: 0, rows: 1, place: 11 });
    assert_eq!(list(&area, 14, &mut rows), Listed { refused: 4, stop: 0, rows: 0, place: 14 });
}

#[test]
fn entries_cross() {
    // Of 43 a part of 1 byte and one of 2, and in file one of 1 byte, which ends at 114; of 9 none.
    let mut bytes = common::message_with(&[43, 1, 7, 52, 1, 1, 43, 2, 8, 9, 255]);
    bytes[111..114].copy_from_slice(&[43, 1, 10]);
    let mut join = [99; 6];
    let found = Step { refused: 0, stop: 0, code: 43, parts: 3, len: 4, place: 114 };
    assert_eq!(calls::find(&bytes, 43, &mut join), found);
    assert_eq!(join, [7, 8, 9, 10, 99, 99]);
    let out = Step { refused: 0, stop: 1, code: 0, parts: 0, len: 0, place: 0 };
    assert_eq!((calls::find(&bytes, 9, &mut join), calls::entry(&bytes, 2, &mut join)), (out, out));
    let one = Step { refused: 0, stop: 0, code: 52, parts: 1, len: 1, place: 246 };
    assert_eq!((calls::entry(&bytes, 0, &mut join), calls::entry(&bytes, 1, &mut [])), (found, one));
    let needs = Step { refused: 5, stop: 0, code: 0, parts: 0, len: 4, place: 0 };
    assert_eq!(calls::find(&bytes, 43, &mut join[..3]), needs);
    let mut rows = [Row::default(); 3];
    assert_eq!(calls::entries(&bytes, &mut rows), Entries { refused: 0, codes: 2 });
    let second = Row { code: 52, parts: 1, len: 1, place: 246 };
    assert_eq!(rows, [Row { code: 43, parts: 3, len: 4, place: 114 }, second, Row::default()]);
    assert_eq!(calls::overload(&bytes), Field { refused: 0, number: 1 });
    bytes[245] = 0x84;
    assert_eq!(calls::overload(&bytes), Field { refused: 16, number: 0 });
    assert_eq!(calls::entries(&bytes, &mut rows), Entries { refused: 16, codes: 0 });
}

#[test]
fn a_stream_crosses() {
    // A size of 0x0102, of which the frame's last two bytes are yet to come, and behind it another size's first byte.
    let mut buffer = [9; 0x0103];
    let sizing = Stream { state: Stream::SIZING, high: 1, ..Stream::default() };
    let filling = Stream { state: Stream::FILLING, high: 0, size: 0x0102, filled: 0x0100 };
    let more = Received { refused: 0, len: 0, used: 0x0101, stream: filling };
    assert_eq!(receive(sizing, &mut buffer, &[2; 0x0101]), more);
    let message = Received { refused: 0, len: 0x0102, used: 2, stream: Stream::default() };
    assert_eq!(receive(filling, &mut buffer, &[7, 8, 1]), message);
    assert_eq!(buffer[0x00FF..], [2, 7, 8, 9]);
    assert_eq!(receive(Stream::default(), &mut buffer, &[1]), Received { used: 1, stream: sizing, ..more });
    // Of a frame that is not whole the buffer has too few bytes now; and any state behind the third is refused.
    let shut = Stream { state: Stream::SHUT, ..Stream::default() };
    let refused = Received { refused: 17, len: 0, used: 0, stream: shut };
    assert_eq!(receive(filling, &mut buffer[..0x0101], &[7]), refused);
    for state in 3..=255 {
        assert_eq!(receive(Stream { state, high: 5, size: 6, filled: 7 }, &mut buffer, &[7]), refused);
    }
    let short = Received { refused: 1, len: 0, used: 3, stream: Stream::default() };
    assert_eq!(receive(Stream::default(), &mut buffer, &[0, 1, 6, 7]), short);
    assert_eq!(buffer[..2], [6, 2]);
}

#[test]
fn values_cross() {
    // Seconds of 2^31 + 5 by code 24, of which strict reading accepts no byte more.
    let value = [128, 0, 0, 5, 6];
    assert_eq!(calls::read(24, &value, false), Value { refused: 0, kind: 8, number: 0x8000_0005, count: 0 });
    assert_eq!(calls::read(24, &value, true), Value { refused: 10, kind: 0, number: 0, count: 0 });
    let pairs = [1, 2, 3, 4, 5, 6, 7, 8, 0x91, 0x92, 0x93, 0x94, 0x95, 0x96, 0x97, 0x98];
    assert_eq!(calls::read(33, &pairs, true), Value { refused: 0, kind: 3, number: 0, count: 2 });
    assert_eq!(element(33, &pairs, 1), Element { refused: 0, first: 0x9192_9394, second: 0x9596_9798 });
    assert_eq!(element(33, &pairs, 2), Element { refused: 4, first: 0, second: 0 });
    assert_eq!((kind_of(33), kind_of(55), kind_of(255)), (3, 11, 0));
    assert_eq!((is_utf8("ä".as_bytes()), is_utf8(&[0xC3]), text(&[0xC3])), (true, false, None));
    let text: calls::Reading<'_> = reading(12, b"ab", true);
    assert_eq!((text.answer(), text.text()), (calls::read(12, b"ab", true), Some("ab")));
    assert_eq!(reading(12, &[0xC3], true).text(), None);
}

#[test]
fn typed_rows_cross() {
    // An address list of 3 ends at 14; an address of 4 bytes ends at 20; a text in two parts ends at 26.
    let area = [3, 12, 1, 2, 3, 4, 5, 6, 7, 8, 9, 10, 11, 12, 50, 4, 0x95, 2, 3, 4, 12, 1, 97, 12, 1, 98];
    let mut rows = [ReadRow::default(); 4];
    assert_eq!(read_list(&area, 0, &mut rows, false), Listed { refused: 0, stop: 1, rows: 3, place: 26 });
    let row = |code, parts, len, place| ReadRow { code, parts, len, place, ..ReadRow::default() };
    assert_eq!(rows[0], ReadRow { kind: 2, count: 3, ..row(3, 1, 12, 14) });
    assert_eq!(rows[1], ReadRow { kind: 1, number: 0x9502_0304, ..row(50, 1, 4, 20) });
    assert_eq!(rows[2], ReadRow { refused: 5, ..row(12, 2, 2, 26) });
    assert_eq!(rows[3], ReadRow::default());
    // Strictness is passed on: a byte too many.
    let area = [23, 2, 7, 8];
    assert_eq!(read_list(&area, 0, &mut rows[..1], true).rows, 1);
    assert_eq!(rows[0], ReadRow { refused: 10, ..row(23, 1, 2, 4) });
}

/// What a write at place 3 of a room of 24 bytes leaves behind that place.
fn at_three(write: impl FnOnce(&mut [u8], usize) -> Written) -> Vec<u8> {
    let mut room = [0xEE; 24];
    let written = write(&mut room, 3);
    assert_eq!(written.refused, 0);
    assert_eq!(room[..3], [0xEE; 3]);
    assert!(room[written.place..].iter().all(|&byte| byte == 0xEE));
    room[3..written.place].to_vec()
}

#[test]
fn writes_cross() {
    assert_eq!(at_three(|room, place| write_bytes(room, place, 200, &[1, 2, 3])), [200, 3, 1, 2, 3]);
    assert_eq!(at_three(close), [255]);
    assert_eq!(at_three(|room, place| write_address(room, place, 50, 0x8102_0304)), [50, 4, 0x81, 2, 3, 4]);
    assert_eq!(at_three(|room, place| write_byte(room, place, 23, 0x91)), [23, 1, 0x91]);
    assert_eq!(at_three(|room, place| write_yes_no(room, place, 19, true)), [19, 1, 1]);
    assert_eq!(at_three(|room, place| write_yes_no(room, place, 20, false)), [20, 1, 0]);
    assert_eq!(at_three(|room, place| write_u16(room, place, 57, 0x8102)), [57, 2, 0x81, 2]);
    assert_eq!(at_three(|room, place| write_u32(room, place, 51, 0x8102_0304)), [51, 4, 0x81, 2, 3, 4]);
    assert_eq!(at_three(|room, place| write_i32(room, place, 2, -2)), [2, 4, 255, 255, 255, 254]);
    assert_eq!(at_three(|room, place| write_text(room, place, 12, b"abc")), [12, 3, 97, 98, 99]);
    assert_eq!(at_three(|room, place| write_node_type(room, place, 46, 0x85)), [46, 1, 0x85]);
    assert_eq!(at_three(|room, place| write_message_type(room, place, 53, 0x86)), [53, 1, 0x86]);
    assert_eq!(at_three(|room, place| write_three_bytes(room, place, 94, [7, 0x88, 9])), [94, 3, 7, 0x88, 9]);
    assert_eq!(at_three(|room, place| write_flag(room, place, 80)), [80, 0]);
    let addresses = [0x8102_0304, 0x8506_0708];
    assert_eq!(
        at_three(|room, place| write_addresses(room, place, 3, &addresses)),
        [3, 8, 0x81, 2, 3, 4, 0x85, 6, 7, 8]
    );
    assert_eq!(at_three(|room, place| write_pairs(room, place, 33, &addresses)), [33, 8, 0x81, 2, 3, 4, 0x85, 6, 7, 8]);
    assert_eq!(at_three(|room, place| write_u16s(room, place, 25, &[0x8102, 0x8304])), [25, 4, 0x81, 2, 0x83, 4]);
    assert_eq!(at_three(|room, place| write_codes(room, place, 55, &[1, 0, 255])), [55, 3, 1, 0, 255]);
    let mut room = [0; 4];
    assert_eq!(write_u32(&mut room, 1, 51, 1), Written { refused: 8, place: 1 });
    assert_eq!(room, [0; 4]);
}

#[test]
fn tables_cross() {
    let routes = [
        Route { width: 24, destination: 0x0A81_0203, gateway: 0xC000_0201 },
        Route { width: 0, destination: 0x0B04_0506, gateway: 0xC000_0282 },
    ];
    assert_eq!(
        at_three(|room, place| write_routes(room, place, &routes)),
        [121, 13, 24, 0x0A, 0x81, 2, 192, 0, 2, 1, 0, 192, 0, 2, 0x82]
    );
    let rows = [
        WriteRow { code: 12, start: 1, len: 2 },
        WriteRow { code: 200, start: 0, len: 3 },
        WriteRow { code: 256, start: 0, len: 1 },
    ];
    let mut room = [0xEE; 16];
    assert_eq!(write_list(&mut room, 3, &rows, &[7, 8, 9]), WrittenRows { refused: 6, rows: 2, place: 3 });
    assert_eq!(room, [0xEE; 16]);
    assert_eq!(write_list(&mut room, 3, &rows[..2], &[7, 8, 9]), WrittenRows { refused: 0, rows: 2, place: 12 });
    assert_eq!(room[2..13], [0xEE, 12, 2, 8, 9, 200, 3, 7, 8, 9, 0xEE]);
}

#[test]
fn routes_cross() {
    // A route of 9 bits with more behind them, which ends at 7, and a host's, which ends at 16.
    let value = [9, 0x8A, 0xFF, 0x91, 0x92, 0x93, 0x94, 32, 0x0B, 0x82, 3, 4, 0x95, 0x96, 0x97, 0x98];
    let first =
        ReadRoute { refused: 0, found: true, width: 9, destination: 0x8A80_0000, gateway: 0x9192_9394, place: 7 };
    let second = ReadRoute { width: 32, destination: 0x0B82_0304, gateway: 0x9596_9798, place: 16, ..first };
    let none = ReadRoute { refused: 0, found: false, width: 0, destination: 0, gateway: 0, place: 16 };
    assert_eq!((route_from(&value, 0), route_from(&value, 7), route_from(&value, 16)), (first, second, none));
    let indexed = [first, second].map(|route| ReadRoute { place: 0, ..route });
    assert_eq!([route_at(&value, 0), route_at(&value, 1)], indexed);
    assert_eq!(route_at(&value, 2), ReadRoute { refused: 4, place: 0, ..none });
    assert_eq!(route_from(&value, 17), ReadRoute { refused: 4, place: 17, ..none });
    assert_eq!(count_routes(&value), RouteCount { refused: 0, count: 2 });
    assert_eq!(count_routes(&value[..15]), RouteCount { refused: 10, count: 0 });
    let pair = [0x8A, 0xFF, 0, 0, 0x91, 0x92, 0x93, 0x94];
    let route = [16, 0x8A, 0xFF, 0x91, 0x92, 0x93, 0x94];
    assert_eq!(at_three(|room, place| move_out(room, place, &pair)), [&[121, 7][..], &route].concat());
    assert_eq!(at_three(|room, place| move_back(room, place, &route)), [&[33, 8][..], &pair].concat());
    let mut room = [0xEE; 9];
    assert_eq!(move_out(&mut room, 1, &pair), Written { refused: 8, place: 1 });
    assert_eq!(move_back(&mut room, 2, &value), Written { refused: 19, place: 2 });
    assert_eq!(room, [0xEE; 9]);
}

#[test]
fn the_listing_crosses() {
    let mut room = [0xEE; 200];
    let bytes = common::message_with(&[53, 1, 5, 255]);
    let written = write_listing(&mut room, 3, &bytes);
    assert_eq!(written.refused, 0);
    let text = std::str::from_utf8(&room[3..written.place]).unwrap();
    assert_eq!(
        text,
        "message 244 op 2 htype 1 hlen 6 xid 0\nchaddr 2 0 0 0 0 1\noption 53 kind 13 parts 1 value 5\nstop end 4\n"
    );
    assert!(room[written.place..].iter().all(|&byte| byte == 0xEE));
}
