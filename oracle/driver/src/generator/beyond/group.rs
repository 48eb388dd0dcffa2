//! What is counted under one heading, and how the last line of `beyond` shows it.

use std::fmt;

/// A heading with each sort and how often it was met.
pub type Group = (&'static str, Vec<(String, u64)>);

/// Sorts in their order, with their counts.
pub fn named<const SORTS: usize>(names: [&str; SORTS], counts: [u64; SORTS]) -> Vec<(String, u64)> {
    let names = names.map(str::to_string).into_iter();
    names.zip(counts).collect()
}

/// The groups one after another.
pub fn shown(f: &mut fmt::Formatter, groups: Vec<Group>) -> fmt::Result {
    for (heading, sorts) in groups {
        write!(f, "; {heading}")?;
        for (name, count) in sorts {
            write!(f, " {name} ({count})")?;
        }
    }
    Ok(())
}

/// What was not met.
pub fn unmet(groups: Vec<Group>) -> Vec<String> {
    let sorts = groups.into_iter().flat_map(|(heading, sorts)| {
        let unmet = sorts.into_iter().filter(|(_, count)| *count == 0);
        unmet.map(move |(name, _)| format!("{heading}: {name}"))
    });
    sorts.collect()
}
