//! The lab's words, one table: what each expects and what it does.
use crate::topics::TOPICS;

pub struct Word {
    pub word: &'static str,
    pub usage: &'static str,
    pub means: &'static str,
}

const fn word(word: &'static str, usage: &'static str, means: &'static str) -> Word {
    Word { word, usage, means }
}

const INTRODUCTION: &str = "\
One command a line, in small letters or capitals; # starts a comment. LPN is a logical page, ID the identifier of a change.
A call may end with '= ANSWER', as in: begin 41 = 7; any other answer is then an error.
";

/// Groups of words, as `help` lists them.
const GROUPS: [(&str, &[Word]); 4] = [
    (
        "The layer's calls",
        &[
            word("format", "format [BLOCKS PAGES LOGICAL [PLANES]]", "one stride of a format; 255 more until it is done"),
            word(
                "format-to-the-end",
                "format-to-the-end [BLOCKS PAGES LOGICAL [PLANES]]",
                "a whole format, as in: format-to-the-end 8 8 16; of one plane, or of as many as are said ('help planes')",
            ),
            word(
                "recover",
                "recover [BLOCKS PAGES LOGICAL [PLANES]]",
                "power is back: makes map and state from what stands on the flash; where it refuses, why ('help refusals')",
            ),
            word("begin", "begin ID", "opens a change"),
            word("write", "write ID LPN DATA", "adds a page to an open change, which may have 41, as in: write 5 3 \"VLAN 20\" ('help data')"),
            word("drop", "drop ID LPN", "adds the drop of a page to an open change: after the commit it reads as never written"),
            word("lone", "lone LPN DATA", "writes a page by itself"),
            word(
                "commit",
                "commit ID",
                "closes a change: what it wrote holds from now on, what it dropped is gone; of changes that share no page either may go first",
            ),
            word("abort", "abort ID", "forgets an open change"),
            word("read", "read LPN", "the page as it holds now"),
            word("checkpoint", "checkpoint", "one stride of a checkpoint: map and zones go to the front"),
            word("reclaim", "reclaim", "one stride of a reclaim: copies what still holds out of a block, then erases it"),
            word("until-done", "until-done CALL", "the call again and again until it no longer answers 255 more"),
        ],
    ),
    (
        "Power",
        &[
            word(
                "cut",
                "cut [CALL / HOW [/ PAGE HOW ..]] or cut between [/ PAGE HOW ..]",
                "the power fails in that call, with the bits that HOW names turned; alone, between two calls ('help how', 'help planes')",
            ),
            word(
                "sweep",
                "sweep [until-done] CALL [/ first|last|but [STEP]]",
                "cuts that call at every due bit, recovers each time, and counts old and new settings; nothing is changed ('help sweep')",
            ),
        ],
    ),
    (
        "Looking",
        &[
            word(
                "show",
                "show zones|block N|page N|map|changes|transactions|book|checkpoints|cut|cut bits|all",
                "prints it ('help pages' explains the words)",
            ),
            word("draw", "draw FILE.svg or draw FILE.html", "the flash as a picture; the page has a slider through all steps up to now"),
            word("report", "report [FILE]", "what the program report prints for this flash; with a file, compared with it"),
            word("geometry", "geometry", "the size of this flash"),
            word("say", "say \"TEXT\"", "prints the text, and puts it into the page as a step"),
            word("help", "help [WORD]", "this list, or more about one word"),
        ],
    ),
    (
        "Files, and the end",
        &[
            word("save", "save FILE", "writes the lines carried out so far, errors left out, as a script: 'lab run FILE' does the same again"),
            word(
                "import",
                "import FILE [BLOCKS PAGES LOGICAL [PLANES]]",
                "a dump as the flash; without numbers the file must begin with the three lines of report; numbers given here are taken instead of those lines",
            ),
            word("export", "export FILE [raw]", "writes the flash, with the three lines of report before it unless raw"),
            word("quit", "quit", "ends the lab; at the prompt it first tells, once, of lines that are not saved"),
        ],
    ),
];

/// The words of traces and of worlds made by hand, as `help traces` lists them.
const TRACES: [Word; 11] = [
    word("page", "page PAGE DATA LPN TXCNT TXID TXVER KIND RESERVED", "makes that page whole with these fields"),
    word("raw", "raw PAGE HEX", "makes that page these 528 bytes"),
    word("byte", "byte I X", "sets byte I of the array"),
    word("map", "map LPN PAGE", "sets a map entry"),
    word("state", "state STATE", "sets the state, in the words of the trace format"),
    word("blank", "blank BLOCKS PAGES LOGICAL [PLANES]", "another flash, of zero bytes, not formatted"),
    word("dark", "dark [map=N hold=N]", "as a cut between two calls; the lost map and hold are filled with these numbers"),
    word("keep", "keep", "remembers the world; until 'back' or a cut each call starts from the world as it stands then"),
    word("back", "back", "puts the remembered world back"),
    word("class", "class PAGE", "whether that page is erased, whole or torn, and by how much, as in: class 16 = torn 65327"),
    word("torn", "torn", "how many pages in scan order are torn, as report prints it"),
];

/// All words.
pub fn words() -> impl Iterator<Item = &'static Word> {
    GROUPS.iter().flat_map(|(_, words)| words.iter()).chain(&TRACES)
}

/// What has an explanation of its own.
pub fn topics() -> impl Iterator<Item = &'static str> {
    TOPICS.iter().map(|(topic, _)| *topic)
}

/// What may stand behind `show`.
pub fn shown() -> impl Iterator<Item = &'static str> {
    let usage = usage("show").and_then(|u| u.strip_prefix("show ")).unwrap_or("");
    usage.split('|').filter_map(|what| what.split(' ').next())
}

/// What a word expects.
pub fn usage(name: &str) -> Option<&'static str> {
    words().find(|w| w.word == name).map(|w| w.usage)
}

/// The word nearest to one that there is not.
pub fn nearest(name: &str) -> Option<&'static str> {
    words().map(|w| (distance(name, w.word), w.word)).min().filter(|(d, w)| *d <= 2 && *d < w.len()).map(|(_, w)| w)
}

/// How many letters are put in, left out, changed or swapped with their neighbour.
fn distance(a: &str, b: &str) -> usize {
    let (a, b): (Vec<char>, Vec<char>) = (a.chars().collect(), b.chars().collect());
    let mut rows = vec![(0..=b.len()).collect::<Vec<usize>>()];
    for i in 1..=a.len() {
        let mut row = vec![i];
        for j in 1..=b.len() {
            let mut least = (rows[i - 1][j] + 1).min(row[j - 1] + 1).min(rows[i - 1][j - 1] + (a[i - 1] != b[j - 1]) as usize);
            if i > 1 && j > 1 && a[i - 1] == b[j - 2] && a[i - 2] == b[j - 1] {
                least = least.min(rows[i - 2][j - 2] + 1);
            }
            row.push(least);
        }
        rows.push(row);
    }
    rows[a.len()][b.len()]
}

/// Words with what they expect and what they do.
fn listed(words: &[Word]) -> String {
    words.iter().map(|w| format!("  {}\n      {}\n", w.usage, w.means)).collect()
}

/// The text of `help`, or of `help WORD`.
pub fn text(name: Option<&str>) -> Result<String, String> {
    let Some(name) = name else {
        let groups: String = GROUPS.iter().map(|(group, words)| format!("\n{group}\n{}", listed(words))).collect();
        let more = topics().map(|t| format!("help {t}")).collect::<Vec<_>>().join(", ");
        return Ok(format!("{INTRODUCTION}{groups}\nMore: {more}\n"));
    };
    let word = words().find(|w| w.word == name).map(|w| format!("{}\n    {}\n", w.usage, w.means));
    let topic = TOPICS.iter().find(|(t, _)| *t == name).map(|(_, text)| format!("{text}\n"));
    let list = if name == "traces" { listed(&TRACES) } else { String::new() };
    match (word, topic) {
        (None, None) => Err(format!("no help for '{name}'; 'help' alone lists the words")),
        (word, topic) => Ok(word.unwrap_or_default() + &topic.unwrap_or_default() + &list),
    }
}

#[cfg(test)]
mod tests {
    use super::*;
    use crate::script::parse;

    #[test]
    fn a_slip_finds_its_word() {
        assert_eq!(nearest("wirte"), Some("write"));
        assert_eq!(nearest("chekpoint"), Some("checkpoint"));
        assert_eq!(nearest("frobnicate"), None);
    }

    #[test]
    fn every_word_has_help() {
        assert!(words().all(|w| text(Some(w.word)).is_ok_and(|t| t.contains(w.usage))));
        assert!(topics().all(|t| text(Some(t)).is_ok()));
        assert!(text(Some("nothing")).is_err());
    }

    #[test]
    fn every_word_with_help_is_a_command() {
        for w in words() {
            let said = parse(w.word, None).err().unwrap_or_default();
            assert!(!said.contains("no command"), "{}: {said}", w.word);
        }
    }

    #[test]
    fn the_first_list_has_what_a_class_needs_and_names_the_rest() {
        let (first, traces) = (text(None).unwrap(), text(Some("traces")).unwrap());
        let lists = |text: &str, w: &Word| text.contains(&format!("\n  {}\n", w.usage));
        assert!(TRACES.iter().all(|w| !lists(&first, w) && lists(&traces, w)));
        assert!(topics().all(|t| first.contains(&format!("help {t}"))));
    }
}
