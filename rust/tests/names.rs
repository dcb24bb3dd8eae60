//! Every public item is used in a test by its name.

use std::collections::BTreeSet;
use std::fs;
use std::path::Path;

/// The texts of a folder's Rust files, this one aside.
fn texts(folder: &str) -> Vec<String> {
    let folder = Path::new(env!("CARGO_MANIFEST_DIR")).join(folder);
    let files = fs::read_dir(folder).expect("the folder is there").flatten().map(|entry| entry.path());
    let rust =
        files.filter(|path| path.extension().is_some_and(|extension| extension == "rs") && !path.ends_with("names.rs"));
    rust.map(|path| fs::read_to_string(path).expect("the file can be read")).collect()
}

fn words(text: &str) -> impl Iterator<Item = &str> {
    text.split(|letter: char| !letter.is_alphanumeric() && letter != '_').filter(|word| !word.is_empty())
}

/// The name behind `pub fn`, `pub const fn`, `pub struct`, `pub enum` or `pub mod`.
fn public_name(line: &str) -> Option<&str> {
    let rest = line.trim_start().strip_prefix("pub ")?;
    let rest = rest.strip_prefix("const ").unwrap_or(rest);
    let item = ["fn ", "struct ", "enum "].iter().find_map(|kind| rest.strip_prefix(kind))?;
    words(item).next()
}

#[test]
fn every_public_item_is_used_by_its_name() {
    let sources = texts("src");
    let public: BTreeSet<&str> = sources.iter().flat_map(|text| text.lines()).filter_map(public_name).collect();
    assert!(public.len() > 100, "{public:?}");
    let tests = texts("tests");
    let used: BTreeSet<&str> = tests.iter().flat_map(|text| words(text)).collect();
    // `$name` stands in the macro; the boundary's own functions are called by those of `calls`.
    let unused: Vec<_> =
        public.iter().filter(|name| !used.contains(*name) && !name.starts_with("sindovaleph_")).collect();
    assert!(unused.is_empty(), "no test has {unused:?}");
}
