//! How fast the library and the crate are, beside hand-written C as the limit: the same inputs through all, in one process, answers
//! compared first.
//! `walk`, `aggregate`, `real`, `typed`, `texts`, `header`, `writing`, `moves`, `stream` and `growth` have the cases; `clock` and `count`
//! measure them.

mod aggregate;
pub mod arguments;
mod case;
mod clock;
mod count;
mod growth;
mod header;
mod inputs;
#[cfg(limit)]
mod limit;
mod machine;
pub mod measuring;
mod moves;
mod page;
mod real;
mod stream;
mod table;
mod texts;
mod typed;
mod walk;
mod writing;

use case::Case;
use std::path::PathBuf;

/// The cases in which the library is held against the crate, with messages of these files.
fn cases(files: &[PathBuf]) -> Result<Vec<Case>, String> {
    let themes = [
        walk::usual(),
        aggregate::cases(),
        real::cases(files)?,
        walk::joins(),
        typed::cases(),
        texts::cases(),
        header::cases(),
        writing::cases(),
        header::kinds(),
        writing::routes(),
        moves::cases(),
        stream::cases(),
    ];
    Ok(themes.into_iter().flatten().collect())
}

#[cfg(test)]
mod tests {
    use super::*;
    use std::collections::HashSet;

    #[test]
    fn every_case_has_its_own_name_and_sides_that_agree() {
        let mut names = HashSet::new();
        for mut case in cases(&[]).into_iter().flatten().chain(growth::cases()) {
            assert_eq!(case.agree(), Ok(()));
            assert!(names.insert(case.name.clone()), "{} is there twice", case.name);
        }
        assert!(names.len() > 100);
    }
}
