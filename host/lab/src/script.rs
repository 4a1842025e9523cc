//! One line of a script or of the keyboard, as a command. The calls, the cuts and the words that spoil a world are those of the trace
//! format; data may also be a text in quotes, and `format` and `recover` may leave out the geometry once there is one.
use crate::{
    command::{Command, Line, Order, Show},
    cut::{How, Left},
    pages::whole_page,
    parse::Words,
    tokens::{tokens, Token},
    trace,
};
use bokuhira::{Geometry, DATA, PAGE};

/// A line of a file as text; before the first one a byte order mark may stand.
pub fn text_line(bytes: &[u8], first: bool) -> Result<&str, String> {
    let text = std::str::from_utf8(bytes).map_err(|_| "this line is no text")?;
    Ok(if first { text.trim_start_matches('\u{feff}') } else { text })
}

/// The command of a line, none where it has none; `geometry` is what `format` and `recover` may leave out.
pub fn parse(line: &str, geometry: Option<Geometry>) -> Result<Option<Line>, String> {
    let (tokens, end) = tokens(line)?;
    let Some(&(_, start)) = tokens.first() else { return Ok(None) };
    let equals = tokens.iter().position(|(t, _)| *t == Token::Word("=".into()));
    if equals == Some(0) {
        return Err("before '=' a call is expected, as in: begin 41 = 7".into());
    }
    let stop = equals.map_or(end, |i| tokens[i].1);
    let expected = equals.map(|i| line[tokens[i].1 + 1..end].trim().to_string());
    let text = line[start..stop].trim().to_string();
    let slash = tokens.iter().find(|(t, _)| *t == Token::Word("/".into())).map_or(stop, |(_, at)| *at);
    let head = line[start..slash.min(stop)].trim().to_string();
    let tokens: Vec<Token> = tokens.into_iter().take(equals.unwrap_or(usize::MAX)).map(|(t, _)| t).collect();
    let lower: Vec<String> = tokens.iter().map(|t| t.written().to_lowercase()).collect();
    let command = Words { tokens: &tokens, lower: &lower, geometry }.command()?;
    let looks = matches!(command, Command::Class(_) | Command::Torn);
    if expected.is_some() && !looks && !matches!(command, Command::Call(_) | Command::FormatToTheEnd(_) | Command::UntilDone(_) | Command::Cut(..)) {
        return Err("an expectation ('= ..') stands only behind a call, a cut, class or torn".into());
    }
    if expected.as_deref() == Some("") {
        return Err("behind '=' an answer is expected, as in: begin 41 = 7".into());
    }
    Ok(Some(Line { text, head, command, expected }))
}

impl Words<'_> {
    fn command(&self) -> Result<Command, String> {
        let n = self.tokens.len();
        if let Some(call) = self.call(0, n)? {
            return Ok(Command::Call(call));
        }
        let slash = self.tokens.iter().position(|t| *t == Token::Word("/".into()));
        match (self.word(0).unwrap_or(""), n) {
            ("format-to-the-end", 1 | 4 | 5) => Ok(Command::FormatToTheEnd(self.geometry_or(1, n)?)),
            ("until-done", _) => Ok(Command::UntilDone(self.call_due(1, n)?)),
            ("cut", 1) => Ok(Command::Cut(None, How::None.into())),
            ("cut", _) if self.word(1) == Some("between") => Ok(Command::Cut(None, Left { early: true, how: How::None, running: self.running(2)? })),
            ("cut", _) => match slash {
                Some(s) => Ok(Command::Cut(Some(self.call_due(1, s)?), self.left(s + 1)?)),
                None => self.usage(),
            },
            ("dark", 1) => Ok(Command::Dark { map: 0, hold: 0 }),
            ("dark", 3) => {
                let value = |at: usize, name: &str, top: u64| -> Result<u64, String> {
                    let found = self.word(at).and_then(|w| w.strip_prefix(name)).and_then(|w| w.parse().ok()).filter(|v| *v <= top);
                    found.ok_or_else(|| format!("expected: dark {name}N, a number from 0 to {top}"))
                };
                Ok(Command::Dark { map: value(1, "map=", 0xFFFF)? as u16, hold: value(2, "hold=", 255)? as u8 })
            }
            ("blank", 4 | 5) => Ok(Command::Blank(self.geometry_at(1, n)?)),
            ("keep", 1) => Ok(Command::Keep),
            ("back", 1) => Ok(Command::Back),
            ("state", _) if n > 1 => {
                let words: Vec<&str> = (1..n).filter_map(|i| self.word(i)).collect();
                trace::state_of(&words).map(|s| Command::State(Box::new(s))).ok_or_else(|| "no state of the trace format".into())
            }
            ("map", 3) => Ok(Command::Map(self.number(1, "map entry", 0xFFFF)? as usize, self.number(2, "page number", 0xFFFF)? as u16)),
            ("byte", 3) => Ok(Command::Byte(self.number(1, "byte of the array", u32::MAX as u64)? as usize, self.number(2, "byte", 255)? as u8)),
            ("page", 9) => {
                let at = self.number(1, "page number", 0xFFFF)? as usize;
                let data = self.data(2)?;
                if data.len() != DATA {
                    return Err("a page has 512 bytes of data, not 511".into());
                }
                let f = |i: usize, what: &str, top: u64| self.number(i, what, top);
                let (lpn, cnt) = (f(3, "LPN", 0xFFFF)? as u16, f(4, "TxCnt", 0xFFFF)? as u16);
                let (id, ver) = (f(5, "TxID", 0xFFFF_FFFF)? as u32, f(6, "TxVer", 0xFFFF_FFFF)? as u32);
                let (kind, reserved) = (f(7, "Kind", 255)? as u8, f(8, "Reserved", 255)? as u8);
                Ok(Command::Page { at, bytes: whole_page(&data, lpn, cnt, id, ver, kind, reserved) })
            }
            ("raw", 3) => {
                let at = self.number(1, "page number", 0xFFFF)? as usize;
                let hex = self.word(2).unwrap_or("");
                let bytes: Option<Vec<u8>> = (hex.len() == 2 * PAGE && hex.is_ascii())
                    .then(|| (0..PAGE).filter_map(|i| u8::from_str_radix(&hex[2 * i..2 * i + 2], 16).ok()).collect());
                match bytes {
                    Some(bytes) if bytes.len() == PAGE => Ok(Command::Page { at, bytes }),
                    _ => Err(format!("a raw page is {} hexadecimal digits", 2 * PAGE)),
                }
            }
            ("class", 2) => Ok(Command::Class(self.number(1, "page number", 0xFFFF)? as usize)),
            ("torn", 1) => Ok(Command::Torn),
            ("show", 2) => match self.word(1) {
                Some("zones") => Ok(Command::Show(Show::Zones)),
                Some("map") => Ok(Command::Show(Show::Map)),
                Some("changes") => Ok(Command::Show(Show::Changes)),
                Some("transactions") => Ok(Command::Show(Show::Transactions)),
                Some("book") => Ok(Command::Show(Show::Book)),
                Some("cut") => Ok(Command::Show(Show::Cut)),
                Some("checkpoints") => Ok(Command::Show(Show::Checkpoints)),
                Some("all") => Ok(Command::Show(Show::All)),
                _ => self.usage(),
            },
            ("show", 3) => match self.word(1) {
                Some("block") => Ok(Command::Show(Show::Block(self.number(2, "block", 0xFFFF)? as usize))),
                Some("page") => Ok(Command::Show(Show::Page(self.number(2, "page number", 0xFFFF)? as usize))),
                Some("cut") if self.word(2) == Some("bits") => Ok(Command::Show(Show::CutBits)),
                _ => self.usage(),
            },
            ("draw", 2) => {
                let file = self.name(1);
                if file.ends_with(".svg") || file.ends_with(".html") {
                    Ok(Command::Draw(file))
                } else {
                    Err(format!("'{file}' is no picture: a name that ends in .svg or .html is expected"))
                }
            }
            ("export", 2) => Ok(Command::Export { file: self.name(1), raw: false }),
            ("export", 3) if self.word(2) == Some("raw") => Ok(Command::Export { file: self.name(1), raw: true }),
            ("import", 2) => Ok(Command::Import { file: self.name(1), geometry: None }),
            ("import", 5 | 6) => Ok(Command::Import { file: self.name(1), geometry: Some(self.geometry_at(2, n)?) }),
            ("save", 2) => Ok(Command::Save(self.name(1))),
            ("report", 1) => Ok(Command::Report(None)),
            ("report", 2) => Ok(Command::Report(Some(self.name(1)))),
            ("sweep", _) if n > 1 => {
                let until_done = self.word(1) == Some("until-done");
                let call = self.call_due(1 + until_done as usize, slash.unwrap_or(n))?;
                let (order, step) = match slash {
                    None => (Order::First, 1),
                    Some(s) => {
                        let order = match self.word(s + 1) {
                            Some("first") => Order::First,
                            Some("last") => Order::Last,
                            Some("but") => Order::But,
                            _ => return Err("behind the / of a sweep is expected: first, last or but, and then maybe the step".into()),
                        };
                        let step = if n > s + 2 { self.number(s + 2, "step", u32::MAX as u64)? as usize } else { 1 };
                        if n > s + 3 || step == 0 {
                            return self.usage();
                        }
                        (order, step)
                    }
                };
                Ok(Command::Sweep { call, until_done, order, step })
            }
            ("geometry", 1) => Ok(Command::Geometry),
            ("say", 2) => Ok(Command::Say(self.name(1))),
            ("help", 1) => Ok(Command::Help(None)),
            ("help", 2) => Ok(Command::Help(Some(self.name(1).to_lowercase()))),
            ("quit" | "exit", 1) => Ok(Command::Quit),
            _ => self.usage(),
        }
    }
}

#[cfg(test)]
mod tests {
    use super::*;
    use crate::cut::Amount;
    use bokuhira::Call;

    fn command(line: &str) -> Command {
        parse(line, None).unwrap().unwrap().command
    }

    #[test]
    fn a_comment_is_no_command() {
        assert_eq!(parse("  # begin 5", None), Ok(None));
        assert_eq!(parse("", None), Ok(None));
        assert_eq!(command("begin 5 # the first"), Command::Call(Call::Begin(5)));
    }

    #[test]
    fn the_labs_words_may_be_in_capitals_and_names_stay_as_written() {
        assert_eq!(command("BEGIN 5"), Command::Call(Call::Begin(5)));
        assert_eq!(command("Cut COMMIT 5 / But Last"), Command::Cut(Some(Call::Commit(5)), How::ButLast.into()));
        assert_eq!(command("SHOW Cut BITS"), Command::Show(Show::CutBits));
        assert_eq!(command("Export Dump.IMG RAW"), Command::Export { file: "Dump.IMG".into(), raw: true });
        assert_eq!(command("SAY \"VLAN 20\""), Command::Say("VLAN 20".into()));
        assert_eq!(command("DARK MAP=7 HOLD=0"), Command::Dark { map: 7, hold: 0 });
        assert_eq!(command("byte 0X10 0Xff"), Command::Byte(16, 255));
    }

    #[test]
    fn a_byte_order_mark_stands_before_the_first_line_only() {
        assert_eq!(text_line("\u{feff}begin 5\r".as_bytes(), true), Ok("begin 5\r"));
        assert_eq!(text_line("\u{feff}begin 5".as_bytes(), false), Ok("\u{feff}begin 5"));
        assert!(text_line(b"\xFF\xFE", true).is_err());
        assert_eq!(command("begin 5\r"), Command::Call(Call::Begin(5)));
    }

    #[test]
    fn a_text_is_padded_and_may_hold_any_sign() {
        let Command::Call(Call::Lone { lpn: 3, data }) = command("lone 3 \"# VLAN = \\\"20\\\"\"") else { panic!() };
        assert_eq!(data.len(), 512);
        assert!(data.starts_with(b"# VLAN = \"20\"\0"));
    }

    #[test]
    fn an_expectation_is_what_stands_behind_the_equals_sign() {
        let line = parse("begin 5 = 7 (-) same", None).unwrap().unwrap();
        assert_eq!((line.text.as_str(), line.expected.as_deref()), ("begin 5", Some("7 (-) same")));
        assert!(parse("begin 5 =", None).unwrap_err().starts_with("behind '='"));
        for line in ["=", "= 5", "= = =", "= begin 5"] {
            assert!(parse(line, None).unwrap_err().starts_with("before '='"), "{line}");
        }
    }

    #[test]
    fn cuts_name_their_bits() {
        assert_eq!(command("cut commit 5 / first 10%"), Command::Cut(Some(Call::Commit(5)), How::First(Amount::Percent(10)).into()));
        assert_eq!(command("cut"), Command::Cut(None, How::None.into()));
        let left = |early: bool, how: How, running: &[(usize, How)]| Left { early, how, running: running.to_vec() };
        let commit = |left: Left| Command::Cut(Some(Call::Commit(5)), left);
        assert_eq!(command("cut commit 5 / all / 17 but 3 / 24 none"), commit(left(false, How::All, &[(17, How::But(3)), (24, How::None)])));
        assert_eq!(command("cut commit 5 / early / 17 all"), commit(left(true, How::None, &[(17, How::All)])));
        assert_eq!(command("cut between / 17 all"), Command::Cut(None, left(true, How::None, &[(17, How::All)])));
        assert_eq!(command("cut between"), Command::Cut(None, left(true, How::None, &[])));
        for line in ["cut between all", "cut between /", "cut commit 5 / all /", "cut commit 5 / early all", "cut commit 5 / all / 17"] {
            assert!(parse(line, None).is_err(), "{line}");
        }
        assert!(parse("cut commit 5 / every 0 0", None).is_err());
        assert!(parse("cut commit 5", None).is_err());
    }

    #[test]
    fn errors_say_what_was_expected() {
        assert!(parse("wirte 5 3 1", None).unwrap_err().contains("did you mean 'write'"));
        assert!(parse("begin five", None).unwrap_err().contains("identifier"));
        assert!(parse("format", None).unwrap_err().contains("no flash yet"));
        assert!(parse("lone 3 \"open", None).unwrap_err().contains("closing"));
    }
}
