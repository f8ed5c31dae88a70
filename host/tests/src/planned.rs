//! Cases that a full run must have reached: how often each was, and which were not. A full run that leaves one out fails (comparison.rs).

use std::collections::BTreeMap;

/// A kind of planned cases, in groups for the table.
pub trait Case: Ord {
    const GROUPS: &'static [&'static str];
    /// What the cases are called where not each is named.
    const ALL: &'static str;

    /// The place of the case's group in `GROUPS`.
    fn group(&self) -> usize;
    fn name(&self) -> String;
}

pub struct Count<C> {
    pub counts: BTreeMap<C, u64>,
}

impl<C> Default for Count<C> {
    fn default() -> Count<C> {
        Count { counts: BTreeMap::new() }
    }
}

impl<C: Case> Count<C> {
    pub fn reached(&mut self, case: C) {
        *self.counts.entry(case).or_default() += 1;
    }

    /// Prints a line for each group of the planned cases; answers those that weren't reached, the first of them by name.
    pub fn report(&self, planned: &[C]) -> Vec<String> {
        for (i, name) in C::GROUPS.iter().enumerate() {
            let counts = planned.iter().filter(|case| case.group() == i).map(|case| self.counts.get(case).copied().unwrap_or(0));
            let (cases, least) = counts.fold((0, u64::MAX), |(cases, least), count| (cases + 1, least.min(count)));
            println!("{name:<42}{cases:>8} planned, each reached {least} times or more");
        }
        let mut missing = planned.iter().filter(|case| !self.counts.contains_key(case));
        let mut names: Vec<String> = missing.by_ref().take(8).map(Case::name).collect();
        let more = missing.count();
        names.extend((more > 0).then(|| format!("{more} more {}", C::ALL)));
        names
    }
}
