//! Tables of ratios. A table may have a goal, to which each ratio of its lines is held; what is missed is said once, at the end.

/// Two runs of one program differ by as much: a ratio within this of its goal meets it.
const NOISE: f64 = 0.05;

pub fn meets(ratio: f64, goal: f64) -> bool {
    ratio <= goal + NOISE
}

#[derive(Default)]
pub struct Table {
    /// The table under way: what it is of, what else the proved times are set beside, and its goal.
    what: String,
    of: Option<&'static str>,
    goal: Option<f64>,
    held: usize,
    missed: Vec<String>,
}

impl Table {
    pub fn head(&mut self, what: &str, of: Option<&'static str>, goal: Option<f64>) {
        (self.what, self.of, self.goal) = (what.to_string(), of, goal);
        let columns: Vec<&str> = [what, "proved", "plain Rust", "times"].into_iter().chain(of).chain(goal.map(|_| "goal")).collect();
        println!("\n| {} |\n{}|", columns.join(" | "), "|---".repeat(columns.len()));
    }

    /// One line, the times in nanoseconds: the proved one beside plain Rust's, and beside the other that the head named. The first ratio.
    pub fn line(&mut self, what: &str, [proved, plain]: [f64; 2], other: Option<f64>) -> f64 {
        let times = proved / plain;
        let ratios = [("times", times)].into_iter().chain(self.of.zip(other.map(|other| proved / other)));
        let mut cells = vec![what.to_string(), time(proved), time(plain)];
        for (of, ratio) in ratios {
            cells.push(format!("{ratio:.2}"));
            if let Some(goal) = self.goal {
                self.hold(meets(ratio, goal), &format!("{}: {what}: {ratio:.2} {of}, goal {goal:.1}", self.what));
            }
        }
        cells.extend(self.goal.map(|goal| format!("{goal:.1}")));
        println!("| {} |", cells.join(" | "));
        times
    }

    /// Notes whether a goal is met, and what to say where it is missed.
    pub fn hold(&mut self, met: bool, missed: &str) {
        self.held += 1;
        if !met {
            self.missed.push(missed.to_string());
        }
    }

    /// The last lines: what was missed, if there were goals.
    pub fn finish(&self) {
        match (self.held, &self.missed[..]) {
            (0, _) => (),
            (_, []) => println!("\nEvery goal was met."),
            (_, missed) => println!("\nMissed:\n\n- {}", missed.join("\n- ")),
        }
    }
}

pub fn time(ns: f64) -> String {
    if ns < 10_000.0 {
        format!("{ns:.0} ns")
    } else if ns < 10_000_000.0 {
        format!("{:.1} µs", ns / 1e3)
    } else {
        format!("{:.1} ms", ns / 1e6)
    }
}
