//! The header for C and C++: it compiles by itself without a warning, its numbers are those of this crate, the examples
//! walk, write, receive and move, NULL with length 0 is an empty slice, and a header of another version does not link.

mod common;

use common::layouts;
use sindovaleph::calls::Stream;
use sindovaleph::{Kind, Refusal, Stop};
use std::collections::BTreeSet;
use std::env;
use std::fs;
use std::path::{Path, PathBuf};
use std::process::{Command, Output};

const WARNINGS: [&str; 4] = ["-Wall", "-Wextra", "-Werror", "-pedantic"];

/// A command by the words of an environment variable, or else by a name.
fn command(variable: &str, otherwise: &str) -> Command {
    let words = env::var(variable).unwrap_or_default();
    let mut words = words.split_whitespace();
    let mut command = Command::new(words.next().unwrap_or(otherwise));
    command.args(words);
    command
}

/// The C compiler for x86-64 Linux.
fn c_compiler() -> Command {
    // The tests are x86-64 programs wherever they run: the machine's own processor is asked of `uname`.
    let machine = Command::new("uname").arg("-m").output().expect("uname runs");
    let native = machine.stdout.starts_with(b"x86_64");
    command("CC", if native { "cc" } else { "x86_64-linux-gnu-gcc" })
}

fn here(path: &str) -> PathBuf {
    Path::new(env!("CARGO_MANIFEST_DIR")).join(path)
}

/// A file of the tests' own folder.
fn scratch(name: &str, text: &str) -> PathBuf {
    let path = Path::new(env!("CARGO_TARGET_TMPDIR")).join(name);
    fs::write(&path, text).expect("the tests' folder can be written to");
    path
}

fn succeeded(command: &mut Command) -> Output {
    let output = command.output().unwrap_or_else(|error| panic!("{command:?} could not be run: {error}"));
    assert!(output.status.success(), "{command:?}\n{}", String::from_utf8_lossy(&output.stderr));
    output
}

/// Compiles a text without a warning.
fn compiles(compiler: &mut Command, name: &str, text: &str) {
    let source = scratch(name, text);
    succeeded(compiler.args(WARNINGS).arg("-fsyntax-only").arg("-I").arg(here("include")).arg(source));
}

#[test]
fn the_header_compiles_alone_as_c() {
    for standard in ["-std=c99", "-std=c11", "-std=gnu17"] {
        compiles(c_compiler().arg(standard), &format!("alone{standard}.c"), "#include \"sindovaleph.h\"\n");
    }
}

#[test]
fn the_header_compiles_alone_as_cpp() {
    if command("CXX", "c++").arg("--version").output().is_err() {
        println!("there is no C++ compiler here");
        return;
    }
    compiles(command("CXX", "c++").arg("-std=c++11"), "alone.cpp", "#include \"sindovaleph.h\"\n");
}

#[test]
fn the_structs_of_the_header_have_the_same_layout() {
    let mut text = String::from("#include \"sindovaleph.h\"\n");
    let mut says = |left: String, right: usize| text += &format!("_Static_assert({left} == {right}, \"\");\n");
    for layout in layouts() {
        says(format!("sizeof(Sindovaleph{})", layout.name), layout.size);
        says(format!("_Alignof(Sindovaleph{})", layout.name), layout.align);
        for (field, offset) in layout.fields {
            says(format!("offsetof(Sindovaleph{}, {field})", layout.name), offset);
        }
    }
    compiles(c_compiler().arg("-std=c11"), "layout.c", &text);
}

/// `CutLength` as `CUT_LENGTH`.
fn in_capitals(name: &str) -> String {
    let mut text = String::new();
    for (i, letter) in name.char_indices() {
        if i > 0 && letter.is_uppercase() {
            text.push('_');
        }
        text.push(letter.to_ascii_uppercase());
    }
    text
}

#[test]
fn the_names_of_the_header_have_the_same_numbers() {
    let mut text = String::from("#include \"sindovaleph.h\"\n");
    let mut says = |group: &str, name: String, number: u8| {
        text += &format!("_Static_assert(SINDOVALEPH_{group}_{} == {number}, \"\");\n", in_capitals(&name));
    };
    for number in 0..=255 {
        Refusal::from_number(number).inspect(|refusal| says("REFUSED", format!("{refusal:?}"), number));
        Stop::from_number(number).inspect(|stop| says("STOP", format!("{stop:?}"), number));
        Kind::from_number(number).inspect(|kind| says("KIND", format!("{kind:?}"), number));
    }
    says("STREAM", "Between".into(), Stream::BETWEEN);
    says("STREAM", "Sizing".into(), Stream::SIZING);
    says("STREAM", "Filling".into(), Stream::FILLING);
    says("STREAM", "Shut".into(), Stream::SHUT);
    assert_eq!(text.lines().count(), 1 + 19 + 5 + 16 + 4);
    compiles(c_compiler().arg("-std=c11"), "numbers.c", &text);
}

/// The compiler that makes a program of sources, with the header of a folder and with the library.
fn linking(program: &Path, include: &Path, sources: &[PathBuf]) -> Command {
    let mut compiler = c_compiler();
    compiler.args(WARNINGS).arg("-I").arg(include).args(sources);
    compiler.arg(Path::new(env!("SINDOVALEPH_FOLDER")).join("libsindovaleph.a")).arg("-o").arg(program);
    compiler
}

/// What a program of one source prints.
fn printed_by(source: &str) -> String {
    let program = scratch(&source.replace(['/', '.'], "-"), "");
    succeeded(&mut linking(&program, &here("include"), &[here(source)]));
    let runner = "CARGO_TARGET_X86_64_UNKNOWN_LINUX_GNU_RUNNER";
    let path = program.to_string_lossy();
    let mut run = command(runner, &path);
    if env::var(runner).is_ok_and(|words| !words.trim().is_empty()) {
        run.arg(&program);
    }
    String::from_utf8_lossy(&succeeded(&mut run).stdout).into_owned()
}

#[test]
fn the_example_walks() {
    let printed = printed_by("examples/walk.c");
    assert_eq!(printed, "option 53 has 1 bytes\noption 12 has 4 bytes\nstop 2 at 12\n");
}

#[test]
fn the_example_writes_all_rows_or_none() {
    let printed = printed_by("examples/rows.c");
    let untouched = " 9".repeat(18);
    let first = format!("row 1 is refused by 6, place 2:{untouched}\n");
    let second = format!("row 2 is refused by 8, place 2:{untouched}\n");
    let third = "3 rows are written, place 17: 9 9 53 1 5 51 4 0 0 14 16 12 4 104 111 115 116 9\n";
    assert_eq!(printed, first + &second + third);
}

#[test]
fn the_example_finds_what_is_split() {
    let printed = printed_by("examples/find.c");
    assert_eq!(printed, "option 67 takes 13 bytes\n/diskless/foo\n52 67 12 53\n");
}

#[test]
fn the_example_receives() {
    let printed = printed_by("examples/receive.c");
    let message = "a message of 244 bytes: option 53, 1 bytes\n";
    let refused = "a frame is refused by 1\n";
    let cut = "the stream ends within a frame: 2 of 244 bytes\n";
    assert_eq!(printed, format!("{message}{refused}{cut}"));
}

#[test]
fn the_example_moves_out_and_back() {
    let printed = printed_by("examples/move.c");
    let out = "option 121: 8 10 192 0 2 1 32 172 16 5 9 192 0 2 1\n";
    let routes = "10.0.0.0/8 via 192.0.2.1\n172.16.5.9/32 via 192.0.2.1\n";
    let back = "option 33: 10 0 0 0 192 0 2 1 172 16 5 9 192 0 2 1\n";
    let refused = "a default route is refused by 18\n";
    assert_eq!(printed, format!("{out}{routes}{back}{refused}"));
}

/// The functions of the header that take a pointer.
fn lending_functions() -> BTreeSet<String> {
    let text = fs::read_to_string(here("include/sindovaleph.h")).expect("the header can be read");
    let declared = text.split(';').filter_map(|item| item.rsplit_once("sindovaleph_")?.1.split_once('('));
    declared.filter(|(_, lent)| lent.contains('*')).map(|(name, _)| format!("sindovaleph_{name}")).collect()
}

#[test]
fn null_with_length_0_is_an_empty_slice() {
    let printed = printed_by("tests/null.c");
    let lines: Vec<&str> = printed.lines().collect();
    let (there, nowhere) = lines.split_at(lines.len() / 2);
    assert_eq!(there, nowhere);
    let called: BTreeSet<String> = there.iter().filter_map(|line| Some(line.split_once(' ')?.0.into())).collect();
    assert_eq!(called, lending_functions());
}

/// A folder with the header of another version, and the name that it has.
fn another_version() -> (PathBuf, String) {
    let text = fs::read_to_string(here("include/sindovaleph.h")).expect("the header can be read");
    let text = text.replace("sindovaleph_boundary_", "sindovaleph_boundary_9");
    let (_, name) = text.split_once("#define SINDOVALEPH_BOUNDARY ").expect("the header names its version");
    let name = name.lines().next().unwrap_or_default().to_string();
    let folder = Path::new(env!("CARGO_TARGET_TMPDIR")).join("another-version");
    fs::create_dir_all(&folder).expect("the tests' folder can be written to");
    fs::write(folder.join("sindovaleph.h"), text).expect("the tests' folder can be written to");
    (folder, name)
}

#[test]
fn a_header_of_another_version_does_not_link() {
    let (another, name) = another_version();
    let program = scratch("versions", "");
    // Two files that include it; the second calls nothing.
    let sources = [here("examples/walk.c"), scratch("second.c", "#include \"sindovaleph.h\"\n")];
    let dropping = ["-O2", "-ffunction-sections", "-fdata-sections", "-Wl,--gc-sections"];
    for words in [&[][..], &dropping[..]] {
        succeeded(linking(&program, &here("include"), &sources).args(words));
        let output = linking(&program, &another, &sources).args(words).output().expect("the compiler runs");
        let said = String::from_utf8_lossy(&output.stderr);
        assert!(!output.status.success() && said.contains(&name), "{words:?} links, or says nothing of {name}: {said}");
    }
}
