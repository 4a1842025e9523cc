//! What calls answer: the numbers of document 01 (docs/PAPERS.md), the trade's word for each, and one line that says what it means and what to do.
use std::fmt;

/// The word and the line of each refusal, from number 1 on.
const REFUSALS: [(&str, &str); 17] = [
    ("bad frame", "geometry, a buffer's length or the state is out of range"),
    ("no checkpoint", "no complete checkpoint stands on the array"),
    ("bad checkpoint", "the newest checkpoint's map or zone lists are out of range"),
    ("bad page", "a whole page in scan order breaks the rules of the spare area"),
    ("bad logical page", "the logical page is not below the number of logical pages"),
    ("bad identifier", "0 and 4294967295 are no identifiers"),
    ("identifier live", "the identifier is of an open change or stands on a page in scan order; take another"),
    ("not begun", "no open change has this identifier"),
    ("places full", "eight changes are open; commit or abort one"),
    ("too long", "the change has 41 pages or more; commit or abort it"),
    ("bad length", "the data are not 512 bytes"),
    ("zone short", "too few clean pages are available; checkpoint, and if that is not enough reclaim and checkpoint again"),
    ("versions spent", "no version or checkpoint number is left"),
    ("never written", "the logical page was never written, or was dropped"),
    ("no gain", "no checkpointed block has an unmapped page"),
    ("reserve short", "fewer clean pages are available than must be copied"),
    ("busy", "another command of several strides is under way; finish it first"),
];

/// One refusal, by document 01's number. It is shown as its number, its word and its line:
///
/// ```
/// let refusal = bokuhira::Refusal(9);
/// assert_eq!(refusal.to_string(), "9 places full: eight changes are open; commit or abort one");
/// ```
#[derive(Clone, Copy, PartialEq, Eq, Debug)]
pub struct Refusal(pub u8);

impl Refusal {
    fn words(self) -> (&'static str, &'static str) {
        let unknown = ("unknown answer", "unknown answer");
        REFUSALS.get((self.0 as usize).wrapping_sub(1)).copied().unwrap_or(unknown)
    }

    /// The trade's word for it.
    pub fn word(self) -> &'static str {
        self.words().0
    }

    /// What it means and what to do, in one line.
    pub fn text(self) -> &'static str {
        self.words().1
    }
}

impl fmt::Display for Refusal {
    fn fmt(&self, f: &mut fmt::Formatter) -> fmt::Result {
        let (word, text) = self.words();
        write!(f, "{} {word}: {text}", self.0)
    }
}

impl std::error::Error for Refusal {}

/// What a call answers. It must be looked at; this does not compile:
///
/// ```compile_fail
/// #![deny(unused_must_use)]
/// let mut store = bokuhira::Store::blank(bokuhira::Geometry::new(8, 8, 16));
/// store.begin(7);
/// ```
///
/// A refusal is an error that any function may hand on:
///
/// ```
/// fn begun() -> Result<(), Box<dyn std::error::Error>> {
///     let mut store = bokuhira::Store::formatted(bokuhira::Geometry::new(8, 8, 16))?;
///     store.begin(0).more()?;
///     Ok(())
/// }
/// assert_eq!(begun().unwrap_err().to_string(), "6 bad identifier: 0 and 4294967295 are no identifiers");
/// ```
#[must_use = "a refused call changed nothing: an ignored answer is a lost setting"]
#[derive(Clone, Copy, PartialEq, Eq, Debug)]
pub enum Answer {
    Done,
    /// One stride of several is done; the same call goes on.
    More,
    Refused(Refusal),
}

impl Answer {
    pub(crate) fn of(number: u8) -> Answer {
        match number {
            0 => Answer::Done,
            255 => Answer::More,
            n => Answer::Refused(Refusal(n)),
        }
    }

    /// 0 done, 255 more, else the refusal's number.
    pub fn number(self) -> u8 {
        match self {
            Answer::Done => 0,
            Answer::More => 255,
            Answer::Refused(r) => r.0,
        }
    }

    /// The trade's word for it.
    pub fn word(self) -> &'static str {
        match self {
            Answer::Done => "done",
            Answer::More => "more",
            Answer::Refused(r) => r.word(),
        }
    }

    /// What it means and what to do, in one line.
    pub fn text(self) -> &'static str {
        match self {
            Answer::Done => "done",
            Answer::More => "one stride is done; call again",
            Answer::Refused(r) => r.text(),
        }
    }

    /// Whether another stride is to follow; a refusal is an error. So a command of several strides is run to its end:
    ///
    /// ```
    /// # fn main() -> Result<(), bokuhira::Refusal> {
    /// # let mut store = bokuhira::Store::formatted(bokuhira::Geometry::new(8, 8, 16))?;
    /// while store.checkpoint().more()? {}
    /// # Ok(())
    /// # }
    /// ```
    pub fn more(self) -> Result<bool, Refusal> {
        match self {
            Answer::Done => Ok(false),
            Answer::More => Ok(true),
            Answer::Refused(r) => Err(r),
        }
    }
}

#[cfg(test)]
mod tests {
    use super::*;

    /// The header names every answer by its word and number, and has the same word and the same line for it.
    #[test]
    fn words_are_the_headers() {
        let header = include_str!("../../include/bokuhira.h");
        let defined =
            |name: &str| header.lines().find_map(|l| l.strip_prefix(&format!("#define BOKUHIRA_{name} "))?.split_whitespace().next()?.parse().ok());
        for number in 0..=255 {
            let answer = Answer::of(number);
            assert_eq!(answer.number(), number);
            let name = answer.word().to_uppercase().replace(' ', "_");
            let known = number <= 17 || number == 255;
            assert_eq!(defined(&name), Some(number).filter(|_| known), "{name}");
            let case = if known { format!("    case BOKUHIRA_{name}: return ") } else { "    default: return ".into() };
            let said: Vec<&str> = header.lines().filter_map(|l| l.strip_prefix(&case)).collect();
            assert_eq!(said, [answer.word(), answer.text()].map(|w| format!("\"{w}\";")), "{name}");
        }
    }

    #[test]
    fn every_answer_has_a_line_of_its_own() {
        let answers: Vec<Answer> = (0..=17).chain([255]).map(Answer::of).collect();
        for (i, a) in answers.iter().enumerate() {
            assert!(!a.text().is_empty() && answers[..i].iter().all(|b| a.text() != b.text()), "{a:?}");
        }
        assert_eq!(Refusal(5).to_string(), "5 bad logical page: the logical page is not below the number of logical pages");
        assert_eq!(Refusal(99).to_string(), "99 unknown answer: unknown answer");
    }

    #[test]
    fn more_follows_or_not_or_it_is_refused() {
        assert_eq!([0, 255, 12].map(|n| Answer::of(n).more()), [Ok(false), Ok(true), Err(Refusal(12))]);
    }
}
