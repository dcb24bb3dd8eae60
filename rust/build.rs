//! Links the library, `libsindovaleph.a`, and says in one sentence what to do where it is not there, or is of another
//! version of the boundary than this crate.
use std::env;
use std::fs;
use std::path::{Path, PathBuf};

const NAME: &str = "libsindovaleph.a";

/// The folder of this crate.
fn here() -> PathBuf {
    PathBuf::from(env::var_os("CARGO_MANIFEST_DIR").unwrap_or_default())
}

/// Whether this is the target for which the library is built.
fn is_built_for_it() -> bool {
    let says = |name: &str, value: &str| env::var(name).is_ok_and(|found| found == value);
    says("CARGO_CFG_TARGET_ARCH", "x86_64")
        && says("CARGO_CFG_TARGET_OS", "linux")
        && says("CARGO_CFG_TARGET_POINTER_WIDTH", "64")
}

/// The folder that SINDOVALEPH_LIBRARY names, if it has the library.
fn named_folder(folder: &Path) -> Result<PathBuf, String> {
    let named = format!("SINDOVALEPH_LIBRARY is `{}`", folder.display());
    if !folder.is_absolute() {
        return Err(format!(
            "{named}, which does not begin at the root: cargo does not tell where it was called, so name the whole path"
        ));
    }
    if !folder.join(NAME).is_file() {
        return Err(format!("{named}, where there is no {NAME}"));
    }
    Ok(folder.to_path_buf())
}

/// The folder beside this crate that has the library: in a package or in the repository.
fn folder_beside() -> Result<PathBuf, String> {
    let folders = [here().join("../lib"), here().join("../target/library")];
    let found = folders.iter().find(|folder| folder.join(NAME).is_file());
    found.cloned().ok_or_else(|| {
        let [package, repository] = folders.map(|folder| folder.display().to_string());
        format!(
            "{NAME} is neither in {package} nor in {repository}: run ./archives in the root of the repository, \
             or name the folder that has it by SINDOVALEPH_LIBRARY"
        )
    })
}

/// The name of the boundary's version, as this crate declares it.
fn version() -> &'static str {
    let mut words = include_str!("src/calls.rs").split(|letter: char| !letter.is_alphanumeric() && letter != '_');
    words.find(|word| word.starts_with("sindovaleph_boundary_")).unwrap_or_default()
}

/// Whether the library has that name. The linker asks too, but only in the end, and not where a static library is made.
fn is_of_this_version(library: &Path) -> bool {
    let name = format!("{}\0", version());
    fs::read(library).is_ok_and(|bytes| bytes.windows(name.len()).any(|window| window == name.as_bytes()))
}

fn folder() -> Result<PathBuf, String> {
    if !is_built_for_it() {
        return Err("sindovaleph is built for x86-64 Linux alone: \
                    build for it with --target x86_64-unknown-linux-gnu"
            .into());
    }
    let named = env::var_os("SINDOVALEPH_LIBRARY");
    let folder = named.map_or_else(folder_beside, |folder| named_folder(Path::new(&folder)))?;
    if !is_of_this_version(&folder.join(NAME)) {
        return Err(format!(
            "{} is not of this crate's version of the boundary, {}: run ./archives in the root of the repository, \
             or take crate and library out of one package",
            folder.join(NAME).display(),
            version()
        ));
    }
    Ok(folder)
}

/// The folder of the header for C: this crate's in the repository, the one beside it in a package.
fn include() -> PathBuf {
    let own = here().join("include");
    if own.is_dir() { own } else { here().join("../include") }
}

fn main() {
    println!("cargo::rerun-if-changed=build.rs");
    println!("cargo::rerun-if-env-changed=SINDOVALEPH_LIBRARY");
    let folder = match folder() {
        Ok(folder) => folder,
        Err(why) => return println!("cargo::error={why}"),
    };
    println!("cargo::rerun-if-changed={}", folder.join(NAME).display());
    println!("cargo::rustc-link-search=native={}", folder.display());
    println!("cargo::rustc-link-lib=static=sindovaleph");
    // For the tests, and for a build script of a crate that links C code of its own.
    println!("cargo::rustc-env=SINDOVALEPH_FOLDER={}", folder.display());
    println!("cargo::metadata=folder={}", folder.display());
    println!("cargo::metadata=include={}", include().display());
}
