//! Counts of what was reached over many sheets, held against the lists of what must and what must not be.

use crate::reach::{REACHABLE, UNREACHABLE};
use crate::watch::Watch;
use std::collections::BTreeMap;

type What = (&'static str, Option<usize>);

#[derive(Default)]
pub struct Cover {
    counts: BTreeMap<What, u64>,
}

impl Watch for Cover {
    fn seen(&mut self, what: &'static str) {
        *self.counts.entry((what, None)).or_default() += 1;
    }

    fn seen_number(&mut self, what: &'static str, number: usize) {
        *self.counts.entry((what, Some(number))).or_default() += 1;
    }
}

impl Cover {
    pub fn count(&self, what: What) -> u64 {
        self.counts.get(&what).copied().unwrap_or(0)
    }

    /// The table of counts, the unreachable last.
    pub fn table(&self) -> String {
        let mut out = String::new();
        for &(name, numbers) in REACHABLE {
            if numbers.is_empty() {
                out += &format!("{:>9}  {name}\n", self.count((name, None)));
            } else {
                let each = |&i: &usize| format!("{i} ({})", self.count((name, Some(i))));
                out += &format!("{:>9}  {name} {}\n", "", numbers.iter().map(each).collect::<Vec<_>>().join(", "));
            }
        }
        for (name, why) in UNREACHABLE {
            out += &format!("{:>9}  {name} (unreachable: {why})\n", self.count((name, None)));
        }
        out
    }

    /// What should have been reached and was not.
    pub fn missing(&self) -> Vec<String> {
        wanted().filter(|&what| self.count(what) == 0).map(|what| format!("not reached: {}", show(what))).collect()
    }

    /// What was reached and should not have been, or is in no list.
    pub fn strange(&self) -> Vec<String> {
        let mut strange = Vec::new();
        for &what in self.counts.keys() {
            if let Some((_, why)) = UNREACHABLE.iter().find(|one| what == (one.0, None)) {
                strange.push(format!("reached, though {why}: {}", show(what)));
            } else if !wanted().any(|one| one == what) {
                strange.push(format!("reached, but in no list: {}", show(what)));
            }
        }
        strange
    }

    /// How many of the reachable were reached, and how many there are.
    pub fn reached(&self) -> (usize, usize) {
        (wanted().filter(|&what| self.count(what) > 0).count(), wanted().count())
    }
}

/// Everything reachable, number by number.
fn wanted() -> impl Iterator<Item = What> {
    REACHABLE.iter().flat_map(|&(name, numbers)| {
        let plain = numbers.is_empty().then_some((name, None));
        plain.into_iter().chain(numbers.iter().map(move |&i| (name, Some(i))))
    })
}

fn show(what: What) -> String {
    match what {
        (name, None) => name.to_string(),
        (name, Some(number)) => format!("{name} {number}"),
    }
}
