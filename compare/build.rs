//! Builds what is written in C, where there is a compiler for it: the limit of what is measured, `limit/limit.c`, for x86-64 Linux, and
//! where the code will be emulated the counter of instructions, `counter/counter.c`, for the processor that emulates. Without a compiler
//! the comparison is built all the same, and `NO_LIMIT` or `NO_COUNTER` says why.
use std::env;
use std::path::{Path, PathBuf};
use std::process::Command;

/// Whether programs for x86-64 run here as they are.
fn native() -> bool {
    env::var("HOST").is_ok_and(|host| host.starts_with("x86_64"))
}

/// What a command says first, where it runs and succeeds.
fn said(command: &mut Command) -> Result<String, String> {
    let name = command.get_program().to_string_lossy().into_owned();
    let output = command.output().map_err(|error| format!("{name} cannot be run: {error}"))?;
    let text = |bytes: &[u8]| String::from_utf8_lossy(bytes).lines().next().unwrap_or("").to_string();
    if output.status.success() { Ok(text(&output.stdout)) } else { Err(format!("{name}: {}", text(&output.stderr))) }
}

/// The path of what is built.
fn made(name: &str) -> PathBuf {
    Path::new(&env::var("OUT_DIR").unwrap_or_default()).join(name)
}

/// Builds a source, and says by which compiler.
fn built(compiler: &str, source: &str, words: &[&str], to: &Path) -> Result<String, String> {
    let mut build = Command::new(compiler);
    build.args(["-O2", "-fPIC", "-Wall", "-Wextra"]).args(words).arg(source).arg("-o").arg(to);
    said(&mut build)?;
    Ok(format!("{}, -O2", said(Command::new(compiler).arg("--version"))?))
}

/// The limit as a static library, and by which compiler. It is linked with the comparison's own library, and so with programs that
/// have the proved one beside it, whose version it names.
fn limit_library(compiler: &str) -> Result<String, String> {
    let object = made("limit.o");
    let built_by = built(compiler, "limit/limit.c", &["-I", "../rust/include", "-c"], &object)?;
    let archiver = said(Command::new(compiler).arg("-print-prog-name=ar"))?;
    said(Command::new(archiver).arg("crs").arg(made("liblimit.a")).arg(&object))?;
    Ok(built_by)
}

/// The limit, by the compiler that CC names, or else the one for x86-64 Linux.
fn limit() {
    let compiler = env::var("CC").unwrap_or(if native() { "cc" } else { "x86_64-linux-gnu-gcc" }.into());
    match limit_library(&compiler) {
        Ok(compiler) => {
            println!("cargo::rustc-cfg=limit");
            println!("cargo::rustc-env=LIMIT_COMPILER={compiler}");
            println!("cargo::rustc-link-search=native={}", made("").display());
            println!("cargo::rustc-link-lib=static=limit");
        }
        Err(why) => println!("cargo::rustc-env=NO_LIMIT={why}"),
    }
}

/// The emulator's counter, by the machine's own compiler.
fn counter() {
    let plugin = made("counter.so");
    match built("cc", "counter/counter.c", &["-shared"], &plugin) {
        Ok(_) => println!("cargo::rustc-env=COUNTER_PLUGIN={}", plugin.display()),
        Err(why) => println!("cargo::rustc-env=NO_COUNTER={why}"),
    }
}

fn main() {
    for path in ["build.rs", "limit", "counter", "../rust/include"] {
        println!("cargo::rerun-if-changed={path}");
    }
    println!("cargo::rerun-if-env-changed=CC");
    println!("cargo::rustc-check-cfg=cfg(limit)");
    limit();
    if !native() {
        counter();
    }
}
