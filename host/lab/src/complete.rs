//! The lab's words that may stand where the Tab key is pressed.
use crate::{help, parse::CALLS};

/// Those that begin as the text ends.
pub fn words(before: &str) -> Vec<&'static str> {
    let (head, begun) = before.rsplit_once(' ').unwrap_or(("", before));
    let begun = begun.to_lowercase();
    let mut found: Vec<&str> = match head.trim().to_lowercase().as_str() {
        "" => help::words().map(|w| w.word).collect(),
        "help" => help::words().map(|w| w.word).chain(help::topics()).collect(),
        "show" => help::shown().collect(),
        "until-done" | "cut" | "sweep until-done" => CALLS.to_vec(),
        "sweep" => CALLS.into_iter().chain(["until-done"]).collect(),
        _ => Vec::new(),
    };
    found.retain(|word| word.starts_with(&begun));
    found.sort_unstable();
    found.dedup();
    found
}

#[cfg(test)]
mod tests {
    use super::words;

    #[test]
    fn words_fit_where_they_stand() {
        assert_eq!(words("rec"), ["reclaim", "recover"]);
        assert_eq!(words("REP"), ["report"]);
        assert_eq!(words("show ch"), ["changes", "checkpoints"]);
        assert_eq!(words("cut comm"), ["commit"]);
        assert_eq!(words("sweep un"), ["until-done"]);
        assert_eq!(words("help tr"), ["traces"]);
        assert!(words("begin 5").is_empty());
    }
}
