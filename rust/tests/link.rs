//! This crate and the library are of one version of the boundary, or a program of them does not link: not even one that
//! calls a single function, and not where all that is unused is dropped.

use std::env;
use std::fs;
use std::path::{Path, PathBuf};
use std::process::{Command, Output};

const TARGET: &str = "x86_64-unknown-linux-gnu";
const PROGRAM: &str = "fn main() { std::process::exit(sindovaleph::kind_of(53).number().into()) }\n";

fn here(path: &str) -> PathBuf {
    Path::new(env!("CARGO_MANIFEST_DIR")).join(path)
}

/// The Rust compiler for the library's target, with the linker that cargo is told of, or else the usual one.
fn compiler(words: &[&str]) -> Command {
    let machine = Command::new("uname").arg("-m").output().expect("uname runs");
    let usual = if machine.stdout.starts_with(b"x86_64") { "cc" } else { "x86_64-linux-gnu-gcc" };
    let linker = env::var("CARGO_TARGET_X86_64_UNKNOWN_LINUX_GNU_LINKER").unwrap_or(usual.into());
    let mut compiler = Command::new(env::var("RUSTC").unwrap_or("rustc".into()));
    compiler.args(["--edition", "2024", "--target", TARGET, "-C"]).arg(format!("linker={linker}")).args(words);
    compiler
}

/// A folder of its own with this crate's sources, where the end of the version's name begins so.
fn sources(folder: &str, number_begins: &str) -> PathBuf {
    let folder = Path::new(env!("CARGO_TARGET_TMPDIR")).join(folder);
    fs::create_dir_all(&folder).expect("the tests' folder can be written to");
    for file in fs::read_dir(here("src")).expect("the sources can be read").flatten() {
        let text = fs::read_to_string(file.path()).expect("the sources are text");
        let text = text.replace("sindovaleph_boundary_", &format!("sindovaleph_boundary_{number_begins}"));
        fs::write(folder.join(file.file_name()), text).expect("the tests' folder can be written to");
    }
    fs::write(folder.join("main.rs"), PROGRAM).expect("the tests' folder can be written to");
    folder
}

/// What the compiler says of a program with this crate, which is made out of a folder of sources, and with the library.
fn linked(folder: &Path, words: &[&str]) -> Output {
    let mut crate_of = compiler(words);
    crate_of.args(["--crate-type", "rlib", "--crate-name", "sindovaleph", "-l", "static=sindovaleph", "-L"]);
    crate_of.arg(env!("SINDOVALEPH_FOLDER")).arg("--out-dir").arg(folder).arg(folder.join("lib.rs"));
    let output = crate_of.output().expect("the Rust compiler runs");
    assert!(output.status.success(), "{}", String::from_utf8_lossy(&output.stderr));
    let mut program = compiler(words);
    program.args(["--extern", "sindovaleph", "-L"]).arg(folder).arg(folder.join("main.rs"));
    program.arg("--out-dir").arg(folder);
    program.output().expect("the Rust compiler runs")
}

/// A program links, and with another number in this crate's sources it does not.
fn only_one_version_links(name: &str, words: &[&str]) {
    let output = linked(&sources(&format!("{name}-own"), ""), words);
    assert!(output.status.success(), "{}", String::from_utf8_lossy(&output.stderr));
    let output = linked(&sources(&format!("{name}-another"), "9"), words);
    let said = String::from_utf8_lossy(&output.stderr);
    assert!(
        !output.status.success() && said.contains("sindovaleph_boundary_9"),
        "it links, or does not say why not: {said}"
    );
}

#[test]
fn a_library_of_another_version_does_not_link() {
    only_one_version_links("plain", &[]);
}

#[test]
fn nor_in_a_program_that_is_optimised_as_a_whole() {
    only_one_version_links("whole", &["-O", "-C", "lto=fat", "-C", "codegen-units=1"]);
}
