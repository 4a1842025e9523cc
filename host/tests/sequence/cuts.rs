//! The cuts of sequences, counted by where they fell.
use crate::common::{say, NAMES};

/// The cuts made: between calls, before an operation, and in each command's programs and erases, by whether no, some or all due bits were
/// turned; so too of the pages that ran. And the torn pages met after them: on all pages, and in scan order.
#[derive(Clone, Default)]
pub struct Cuts {
    pub torn: usize,
    pub torn_in_scan_order: usize,
    pub between: usize,
    pub without_operation: usize,
    pub in_programs: [[usize; 3]; NAMES.len()],
    pub in_erases: [[usize; 3]; NAMES.len()],
    /// In the program of a page that drops.
    pub in_drops: usize,
    /// Before the operation begins, where pages run; one of them in the plane of the page to be programmed.
    pub early: [usize; 2],
    /// Pages that ran.
    pub in_running: [usize; 3],
    /// The mark is whole, and a page of its change that ran is not; or one of another change.
    pub short_of_own: usize,
    pub short_of_others: usize,
}

impl Cuts {
    fn operations(&self) -> impl Iterator<Item = &usize> {
        self.in_programs.iter().chain(&self.in_erases).flatten()
    }

    /// In programs and erases.
    pub fn in_operations(&self) -> usize {
        self.operations().sum()
    }

    pub fn all(&self) -> usize {
        self.between + self.without_operation + self.in_operations()
    }

    pub fn add(&mut self, other: &Cuts) {
        self.torn += other.torn;
        self.torn_in_scan_order += other.torn_in_scan_order;
        self.between += other.between;
        self.without_operation += other.without_operation;
        self.in_drops += other.in_drops;
        self.short_of_own += other.short_of_own;
        self.short_of_others += other.short_of_others;
        let here = self.in_programs.iter_mut().chain(&mut self.in_erases).flatten();
        here.zip(other.operations()).for_each(|(a, b)| *a += b);
        let here = self.early.iter_mut().chain(&mut self.in_running);
        here.zip(other.early.iter().chain(&other.in_running)).for_each(|(a, b)| *a += b);
    }

    /// A line for each kind of operation after a format; each must have been cut with no, some and all due bits turned.
    pub fn say(&self) {
        say(&format!("  {} torn pages after them, each by at least 1; {} of them in scan order", self.torn, self.torn_in_scan_order));
        assert!(self.torn > 10_000 && self.torn_in_scan_order > 1_000, "few torn pages were met");
        say(&format!("  {} between calls, {} in calls without an operation", self.between, self.without_operation));
        say(&format!("  {} in the program of a page that drops", self.in_drops));
        assert!(self.in_drops > 200, "few drops were cut");
        let [none, some, all] = self.in_running;
        say(&format!("  of pages that ran: {none} with no due bit turned, {some} with some, {all} with all"));
        say(&format!("  {} before the operation begins while pages run, {} with one in its plane", self.early[0], self.early[1]));
        say(&format!("  {} whole marks with a running page of theirs torn or lost, {} with one of others", self.short_of_own, self.short_of_others));
        assert!(none > 100 && some > 100 && all > 100, "pages that ran were not cut in every way");
        assert!(self.early[1] > 50 && self.short_of_own > 100 && self.short_of_others > 20, "few pages were cut beside others");
        for (what, counts, commands) in [
            ("programs", &self.in_programs, &["write", "drop", "lone", "commit", "checkpoint", "reclaim"][..]),
            ("erases", &self.in_erases, &["checkpoint", "reclaim"][..]),
        ] {
            for command in commands {
                let [none, some, all] = counts[NAMES.iter().position(|n| n == command).unwrap()];
                say(&format!("  in {what} of {command}: {none} with no due bit turned, {some} with some, {all} with all"));
                assert!(none > 0 && some > 0 && all > 0, "{what} of {command} were not cut in every way");
            }
        }
    }
}

/// How many bits were turned: none, some, all.
pub fn how_many(turned: &[bool]) -> usize {
    if turned.contains(&false) {
        turned.contains(&true).into()
    } else {
        2
    }
}
