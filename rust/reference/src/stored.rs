//! What the programs `crates/cases`, `crates/ground_cases` and `crates/sheet` are given and must print, by this
//! implementation: the files that `rt ci` runs them with. Of the programs' sources only the list of cases and the
//! form of trials and lines is shared.

mod cases;
mod edges;
mod refusals;
mod show;
mod trial;
mod trials;

use crate::sheet::sheet;

/// The stored files of the three programs: their paths from the root of the repository, and what they hold. The sheet
/// program is given case A.
pub fn files() -> Vec<(&'static str, Vec<u8>)> {
    let trials = trials::all();
    let stdin: Vec<u8> = trials.iter().flat_map(|trial| trial.to_bytes()).collect();
    let stdout: String = trials.iter().map(|trial| trial.line() + "\n").collect();
    vec![
        ("crates/cases/stdout", cases_stdout().into_bytes()),
        ("crates/ground_cases/stdin", stdin),
        ("crates/ground_cases/stdout", stdout.into_bytes()),
        ("crates/sheet/stdin", cases::case_a()),
        ("crates/sheet/stdout", sheet(&cases::case_a())),
    ]
}

/// The lines of `crates/cases`, in its order.
fn cases_stdout() -> String {
    let groups = [
        cases::records(),
        cases::splittings(),
        cases::questions(),
        edges::sizes(),
        edges::counts(),
        refusals::of_casebooks(),
        refusals::of_tables(),
        refusals::of_calls(),
        refusals::of_halves(),
    ];
    groups
        .concat()
        .iter()
        .map(|line| line.clone() + "\n")
        .collect()
}

#[cfg(test)]
mod tests {
    use super::*;

    /// The program reads at most 65,536 bytes of trials.
    #[test]
    fn trials_fit_into_the_programs_buffer() {
        let length = files()[1].1.len();
        println!("{length} bytes of trials");
        assert!(length <= 65_536, "{length} bytes of trials");
    }
}
