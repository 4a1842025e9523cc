//! Editing a line at the prompt: keys in, and out come what the screen is to be sent and, at the end, the line. No terminal is touched
//! here.
use crate::keys::Key;

/// How a line ended.
#[derive(Clone, PartialEq, Eq, Debug)]
pub enum Ended {
    Line(String),
    /// Ctrl-C: the line is forgotten.
    Break,
    /// Ctrl-D on an empty line.
    Input,
}

/// The words that may stand at the end of a text, given that text.
pub type Completing = fn(&str) -> Vec<&'static str>;

pub struct Editor {
    prompt: &'static str,
    completing: Completing,
    line: Vec<char>,
    /// Before which letter the cursor stands.
    at: usize,
    /// From which letter on the line is seen, where it is longer than the screen is wide.
    from: usize,
    past: Vec<String>,
    /// Which of the past lines is edited; their number where it is a new one, which waits in `draft` meanwhile.
    back: usize,
    draft: Vec<char>,
}

impl Editor {
    pub fn new(prompt: &'static str, completing: Completing) -> Editor {
        Editor { prompt, completing, line: Vec::new(), at: 0, from: 0, past: Vec::new(), back: 0, draft: Vec::new() }
    }

    /// Begins an empty line on a screen of that width.
    pub fn begin(&mut self, width: usize) -> String {
        (self.line, self.at, self.from, self.back, self.draft) = (Vec::new(), 0, 0, self.past.len(), Vec::new());
        self.drawn(width)
    }

    /// One key: what the screen is sent, and how the line ended, if it did.
    pub fn key(&mut self, key: Key, width: usize) -> (String, Option<Ended>) {
        let mut sent = String::new();
        match key {
            Key::Letter(c) => {
                self.line.insert(self.at, c);
                self.at += 1;
            }
            Key::Left => self.at = self.at.saturating_sub(1),
            Key::Right => self.at = (self.at + 1).min(self.line.len()),
            Key::Home => self.at = 0,
            Key::End => self.at = self.line.len(),
            Key::Up => self.past_line(self.back.saturating_sub(1)),
            Key::Down => self.past_line((self.back + 1).min(self.past.len())),
            Key::Backspace if self.at > 0 => {
                self.at -= 1;
                self.line.remove(self.at);
            }
            Key::Backspace => (),
            Key::Before => self.take(0),
            Key::After => self.line.truncate(self.at),
            Key::Word => {
                let letters = self.line[..self.at].iter().rposition(|c| *c != ' ').map_or(0, |i| i + 1);
                self.take(self.line[..letters].iter().rposition(|c| *c == ' ').map_or(0, |i| i + 1));
            }
            Key::Tab => sent = self.complete(),
            Key::Clear => sent = "\x1b[H\x1b[2J".into(),
            Key::Enter => return (self.left(width, ""), Some(Ended::Line(self.finished()))),
            Key::Break => return (self.left(width, "^C"), Some(Ended::Break)),
            Key::EndOrDelete if self.line.is_empty() => return ("\r\n".into(), Some(Ended::Input)),
            Key::Delete | Key::EndOrDelete if self.at < self.line.len() => {
                self.line.remove(self.at);
            }
            Key::Delete | Key::EndOrDelete => (),
        }
        (sent + &self.drawn(width), None)
    }

    /// Takes away what stands from there up to the cursor.
    fn take(&mut self, from: usize) {
        self.line.drain(from..self.at);
        self.at = from;
    }

    /// Goes to that one of the past lines; past the last, to the one that was begun.
    fn past_line(&mut self, to: usize) {
        if self.back == self.past.len() {
            self.draft = self.line.clone();
        }
        if to != self.back {
            self.line = self.past.get(to).map_or_else(|| self.draft.clone(), |line| line.chars().collect());
            (self.back, self.at) = (to, self.line.len());
        }
    }

    /// The line, which from now on is one of the past ones.
    fn finished(&mut self) -> String {
        let line: String = self.line.iter().collect();
        if !line.trim().is_empty() && self.past.last() != Some(&line) {
            self.past.push(line.clone());
        }
        line
    }

    /// As much of a word as can only be meant; where there are several, they are listed.
    fn complete(&mut self) -> String {
        let before: String = self.line[..self.at].iter().collect();
        let words = (self.completing)(&before);
        let typed = before.rsplit(' ').next().unwrap_or("").chars().count();
        let shared = words.iter().skip(1).fold(words.first().map_or(0, |w| w.len()), |n, w| shared_start(&words[0][..n], w));
        let rest: Vec<char> =
            words.first().map_or(Vec::new(), |w| w[..shared].chars().skip(typed).chain((words.len() == 1).then_some(' ')).collect());
        if rest.is_empty() && words.len() > 1 {
            return format!("\r\n{}\r\n", words.join("  "));
        }
        let added = rest.len();
        self.line.splice(self.at..self.at, rest);
        self.at += added;
        String::new()
    }

    /// The line as the screen keeps it when the cursor leaves.
    fn left(&mut self, width: usize, end: &str) -> String {
        self.at = self.line.len();
        format!("{}{end}\r\n", self.drawn(width))
    }

    /// The row as it is to look: the prompt, as much of the line as there is room for, and the cursor.
    fn drawn(&mut self, width: usize) -> String {
        let start = self.prompt.len();
        let room = width.saturating_sub(start + 1).max(1);
        self.from = self.from.min(self.at);
        while columns(&self.line[self.from..self.at]) > room {
            self.from += 1;
        }
        // no room is left empty that letters before would fill
        while self.from > 0 && columns(&self.line[self.from - 1..]) <= room {
            self.from -= 1;
        }
        let mut seen = self.from;
        while seen < self.line.len() && columns(&self.line[self.from..=seen]) <= room {
            seen += 1;
        }
        let text: String = self.line[self.from..seen].iter().collect();
        format!("\r{}{text}\x1b[K\r\x1b[{}C", self.prompt, start + columns(&self.line[self.from..self.at]))
    }
}

/// How long the start is that two words share.
fn shared_start(a: &str, b: &str) -> usize {
    a.bytes().zip(b.bytes()).take_while(|(x, y)| x == y).count()
}

/// How many columns letters take: a combining one none, a wide one two.
fn columns(letters: &[char]) -> usize {
    let wide = |c: u32| matches!(c, 0x1100..=0x115F | 0x2E80..=0xA4CF | 0xAC00..=0xD7A3 | 0xF900..=0xFAFF | 0xFE30..=0xFE6F | 0xFF00..=0xFF60 | 0xFFE0..=0xFFE6 | 0x1F300..=0x1FAFF | 0x20000..=0x3FFFD);
    letters.iter().map(|c| if (0x300..0x370).contains(&(*c as u32)) { 0 } else { 1 + wide(*c as u32) as usize }).sum()
}

#[cfg(test)]
mod tests {
    use super::*;
    use crate::keys::Keys;

    /// A screen of one row that counts: what stands in the last one, and where the cursor is.
    #[derive(Default)]
    struct Row {
        letters: Vec<char>,
        at: usize,
        rows: Vec<String>,
    }

    impl Row {
        fn send(&mut self, text: &str) {
            let mut chars = text.chars();
            while let Some(c) = chars.next() {
                match c {
                    '\r' => self.at = 0,
                    '\n' => {
                        self.rows.push(self.letters.iter().collect());
                        self.letters.clear();
                    }
                    '\x1b' => {
                        assert_eq!(chars.next(), Some('['));
                        let mut number = 0;
                        loop {
                            match chars.next().expect("a sequence that ends") {
                                d @ '0'..='9' => number = 10 * number + d as usize - '0' as usize,
                                'C' => break self.at += number,
                                'K' => break self.letters.truncate(self.at),
                                'H' => break self.at = 0,
                                'J' => break self.letters.clear(),
                                other => panic!("sequence {other}"),
                            }
                        }
                    }
                    c => {
                        self.letters.resize(self.letters.len().max(self.at + 1), ' ');
                        self.letters[self.at] = c;
                        self.at += columns(&[c]);
                    }
                }
            }
        }
    }

    const WORDS: [&str; 3] = ["recover", "reclaim", "show"];

    fn completing(before: &str) -> Vec<&'static str> {
        WORDS.into_iter().filter(|w| !before.contains(' ') && w.starts_with(before)).collect()
    }

    /// What a screen of that width shows after each of these inputs, and how the lines ended.
    fn typed(width: usize, inputs: &[&str]) -> (Row, Vec<Ended>) {
        let (mut editor, mut keys, mut row, mut ended) = (Editor::new("lab> ", completing), Keys::default(), Row::default(), Vec::new());
        row.send(&editor.begin(width));
        for byte in inputs.iter().flat_map(|i| i.bytes()) {
            let Some(key) = keys.byte(byte) else { continue };
            let (sent, end) = editor.key(key, width);
            row.send(&sent);
            if let Some(end) = end {
                ended.push(end);
                row.send(&editor.begin(width));
            }
        }
        (row, ended)
    }

    fn shows(inputs: &[&str], line: &str, at: usize) {
        let (row, _) = typed(80, inputs);
        assert_eq!((row.letters.iter().collect::<String>().as_str(), row.at), (format!("lab> {line}").as_str(), 5 + at), "{inputs:?}");
    }

    #[test]
    fn letters_go_in_where_the_cursor_is() {
        shows(&["begin 5"], "begin 5", 7);
        shows(&["bgin 5", "\x1b[D\x1b[D\x1b[D\x1b[D\x1b[D", "e"], "begin 5", 2);
        shows(&["egin", "\x1b[H", "b", "\x1b[F", " 5"], "begin 5", 7);
        shows(&["egin", "\x01", "b", "\x05", " 5"], "begin 5", 7);
        shows(&["say \"Grüße\"", "\x1b[D\x1b[D", "x"], "say \"Grüßxe\"", 10);
    }

    #[test]
    fn letters_are_taken_away() {
        shows(&["begim\x7fn 5"], "begin 5", 7);
        shows(&["bbegin", "\x01\x1b[3~"], "begin", 0);
        shows(&["bbegin", "\x01\x04"], "begin", 0);
        shows(&["write 5 3", "\x17"], "write 5 ", 8);
        shows(&["write 5 3 ", "\x17\x17"], "write ", 6);
        shows(&["write 5 3", "\x1b[D\x1b[D", "\x15"], " 3", 0);
        shows(&["write 5 3", "\x1b[D\x1b[D", "\x0b"], "write 5", 7);
        shows(&["\x7f\x1b[3~\x17\x15\x0b", "a"], "a", 1);
    }

    #[test]
    fn past_lines_come_back_and_the_line_begun_is_not_lost() {
        shows(&["begin 5\r", "commit 5\r", "\x1b[A"], "commit 5", 8);
        shows(&["begin 5\r", "commit 5\r", "\x1b[A\x1b[A\x1b[A"], "begin 5", 7);
        shows(&["begin 5\r", "rea", "\x1b[A", "\x1b[B"], "rea", 3);
        shows(&["begin 5\r", "begin 5\r", "\r", "read 0\r", "\x1b[A\x1b[A"], "begin 5", 7);
    }

    #[test]
    fn a_line_ends_with_enter_with_a_break_or_with_the_input() {
        let (row, ended) = typed(80, &["begin 5\r", "commit", "\x03", "\x04"]);
        assert_eq!(ended, [Ended::Line("begin 5".into()), Ended::Break, Ended::Input]);
        assert_eq!(row.rows, ["lab> begin 5", "lab> commit^C", "lab> "]);
    }

    #[test]
    fn a_line_longer_than_the_screen_is_moved_under_the_cursor() {
        let (row, _) = typed(20, &["write 5 3 \"a long text\""]);
        assert_eq!((row.letters.iter().collect::<String>().as_str(), row.at), ("lab>  \"a long text\"", 19));
        let (row, _) = typed(20, &["write 5 3 \"a long text\"", "\x01"]);
        assert_eq!((row.letters.iter().collect::<String>().as_str(), row.at), ("lab> write 5 3 \"a l", 5));
        let (row, ended) = typed(20, &["write 5 3 \"a long text\"", "\x01", "\r"]);
        assert_eq!((row.rows.len(), ended), (1, vec![Ended::Line("write 5 3 \"a long text\"".into())]));
        // wide letters take two columns
        let (row, _) = typed(20, &["港港港港港港港港"]);
        assert_eq!((row.letters.iter().filter(|c| **c == '港').count(), row.at), (7, 19));
    }

    #[test]
    fn tab_completes_a_word_and_lists_several() {
        shows(&["sh\t"], "show ", 5);
        shows(&["re\t"], "rec", 3);
        let (row, _) = typed(80, &["rec\t"]);
        assert_eq!(row.rows, ["lab> rec", "recover  reclaim"]);
        shows(&["x\t"], "x", 1);
    }

    #[test]
    fn the_screen_is_cleared_and_the_line_stays() {
        shows(&["begin", "\x0c", " 5"], "begin 5", 7);
    }
}
