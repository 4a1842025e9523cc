//! The parts of a line: numbers, geometries, data, calls, and which due bits a cut turns.
use crate::{
    cut::{Amount, How, Left},
    data::seeded,
    files, help,
    tokens::Token,
};
use bokuhira::{Call, Geometry, DATA};

/// The layer's calls by their words.
pub const CALLS: [&str; 11] = ["begin", "write", "drop", "lone", "commit", "abort", "read", "checkpoint", "reclaim", "format", "recover"];

/// The words of a line, the same in lower case, and the geometry that a call may leave out.
pub struct Words<'a> {
    pub tokens: &'a [Token],
    pub lower: &'a [String],
    pub geometry: Option<Geometry>,
}

impl Words<'_> {
    /// A word that is not in quotes, in lower case, as the lab's words are.
    pub fn word(&self, at: usize) -> Option<&str> {
        match self.tokens.get(at) {
            Some(Token::Word(_)) => Some(&self.lower[at]),
            _ => None,
        }
    }

    pub fn shown(&self, at: usize) -> String {
        match &self.tokens[at] {
            Token::Word(w) => format!("'{w}'"),
            Token::Text(t) => format!("\"{t}\""),
        }
    }

    /// What a word expects, said from its line in the help.
    pub fn usage<T>(&self) -> Result<T, String> {
        let word = self.word(0).unwrap_or("");
        Err(match help::usage(word) {
            Some(usage) => format!("expected: {usage}"),
            None => match help::nearest(word) {
                Some(near) => format!("no command {}; did you mean '{near}'? ('help' lists them)", self.shown(0)),
                None => format!("no command {}; 'help' lists them", self.shown(0)),
            },
        })
    }

    pub fn number(&self, at: usize, what: &str, top: u64) -> Result<u64, String> {
        if at >= self.tokens.len() {
            return self.usage();
        }
        let value = self.word(at).and_then(|w| match w.strip_prefix("0x") {
            Some(hex) => u64::from_str_radix(hex, 16).ok(),
            None => w.parse().ok(),
        });
        value.filter(|v| *v <= top).ok_or_else(|| format!("{} is no {what}: a number from 0 to {top} is expected", self.shown(at)))
    }

    /// A geometry: blocks, pages, logical pages, and maybe planes.
    pub fn geometry_at(&self, at: usize, end: usize) -> Result<Geometry, String> {
        let n = |i: usize, what: &str| self.number(at + i, what, 0xFFFF).map(|v| v as u16);
        let g = Geometry::new(n(0, "number of blocks")?, n(1, "number of pages")?, n(2, "number of logical pages")?);
        let g = g.with_planes(if end > at + 3 { n(3, "number of planes")? } else { 1 });
        if g.array_len() > files::ROOM {
            return Err(format!(
                "{} blocks of {} pages are more than the lab has room for: at most 128 blocks of 64 pages are allowed",
                g.blocks, g.pages
            ));
        }
        Ok(g)
    }

    /// The geometry behind `format` or `recover`, or the one there is.
    pub fn geometry_or(&self, at: usize, end: usize) -> Result<Geometry, String> {
        match (end > at, self.geometry) {
            (true, _) => self.geometry_at(at, end),
            (false, Some(g)) => Ok(g),
            (false, None) => Err("there is no flash yet: give blocks, pages and logical pages, as in: format-to-the-end 8 8 16".into()),
        }
    }

    pub fn data(&self, at: usize) -> Result<Vec<u8>, String> {
        match self.tokens.get(at) {
            Some(Token::Text(t)) if t.len() <= DATA => {
                let mut bytes = t.as_bytes().to_vec();
                bytes.resize(DATA, 0);
                Ok(bytes)
            }
            Some(Token::Text(t)) => Err(format!("a text of {} bytes: a page takes {DATA}", t.len())),
            Some(Token::Word(_)) if self.word(at) == Some("short") => Ok(seeded(0)[..DATA - 1].to_vec()),
            Some(Token::Word(w)) => match w.parse() {
                Ok(seed) => Ok(seeded(seed)),
                Err(_) => Err(format!("'{w}' is no data: a text in quotes, a seed number or 'short' is expected")),
            },
            None => self.usage(),
        }
    }

    fn exactly(&self, n: usize, end: usize) -> Result<(), String> {
        if end == n {
            Ok(())
        } else {
            self.usage()
        }
    }

    /// The call in the words from `at` up to `end`; none where there is no such call.
    pub fn call(&self, at: usize, end: usize) -> Result<Option<Call>, String> {
        let inner = Words { tokens: &self.tokens[at..end], lower: &self.lower[at..end], geometry: self.geometry };
        let n = end - at;
        let id = |i: usize| inner.number(i, "identifier", 0xFFFF_FFFF).map(|v| v as u32);
        let lpn = |i: usize| inner.number(i, "logical page", 0xFFFF).map(|v| v as u16);
        let call = match inner.word(0) {
            Some("format") => {
                inner.exactly(if n > 1 { n.clamp(4, 5) } else { 1 }, n)?;
                Call::Format(inner.geometry_or(1, n)?)
            }
            Some("recover") => {
                inner.exactly(if n > 1 { n.clamp(4, 5) } else { 1 }, n)?;
                Call::Recover(inner.geometry_or(1, n)?)
            }
            Some("begin") => {
                inner.exactly(2, n)?;
                Call::Begin(id(1)?)
            }
            Some("write") => {
                inner.exactly(4, n)?;
                Call::Write { id: id(1)?, lpn: lpn(2)?, data: inner.data(3)? }
            }
            Some("drop") => {
                inner.exactly(3, n)?;
                Call::Drop { id: id(1)?, lpn: lpn(2)? }
            }
            Some("lone") => {
                inner.exactly(3, n)?;
                Call::Lone { lpn: lpn(1)?, data: inner.data(2)? }
            }
            Some("commit") => {
                inner.exactly(2, n)?;
                Call::Commit(id(1)?)
            }
            Some("abort") => {
                inner.exactly(2, n)?;
                Call::Abort(id(1)?)
            }
            Some("read") => {
                inner.exactly(2, n)?;
                Call::Read(lpn(1)?)
            }
            Some("checkpoint") => {
                inner.exactly(1, n)?;
                Call::Checkpoint
            }
            Some("reclaim") => {
                inner.exactly(1, n)?;
                Call::Reclaim
            }
            _ => return Ok(None),
        };
        Ok(Some(call))
    }

    /// A call where one must stand.
    pub fn call_due(&self, at: usize, end: usize) -> Result<Call, String> {
        if at >= end {
            return self.usage();
        }
        match self.call(at, end)? {
            Some(call) => Ok(call),
            None => Err(format!("{} is no call: one of {} is expected", self.shown(at), CALLS.join(", "))),
        }
    }

    fn amount(&self, at: usize) -> Result<Amount, String> {
        match self.word(at).and_then(|w| w.strip_suffix('%')) {
            Some(n) => match n.parse() {
                Ok(n) if n <= 100 => Ok(Amount::Percent(n)),
                _ => Err(format!("{} is no share: 0% to 100% is expected", self.shown(at))),
            },
            None => Ok(Amount::Bits(self.number(at, "number of bits", u32::MAX as u64)? as usize)),
        }
    }

    /// What stands behind the first / of a cut: which bits of the call's operation, or `early`, and then each page that runs with its bits.
    pub fn left(&self, at: usize) -> Result<Left, String> {
        let end = self.slash(at);
        let early = self.word(at) == Some("early") && end == at + 1;
        let how = if early { How::None } else { self.how(at, end)? };
        Ok(Left { early, how, running: self.running(end)? })
    }

    /// Each `/ PAGE HOW` from here to the end.
    pub fn running(&self, at: usize) -> Result<Vec<(usize, How)>, String> {
        let (mut at, mut running) = (at, Vec::new());
        while at < self.tokens.len() {
            if self.word(at) != Some("/") {
                return self.usage();
            }
            let end = self.slash(at + 1);
            running.push((self.number(at + 1, "page number", 0xFFFF)? as usize, self.how(at + 2, end)?));
            at = end;
        }
        Ok(running)
    }

    /// Where the next / stands, or the end.
    fn slash(&self, at: usize) -> usize {
        (at..self.tokens.len()).find(|i| self.tokens[*i] == Token::Word("/".into())).unwrap_or(self.tokens.len())
    }

    fn how(&self, at: usize, end: usize) -> Result<How, String> {
        let n = end.saturating_sub(at);
        let bits = |i: usize| self.number(at + i, "number of bits", u32::MAX as u64).map(|v| v as usize);
        match (self.word(at), n) {
            (Some("none"), 1) => Ok(How::None),
            (Some("all"), 1) => Ok(How::All),
            (Some("every"), 3) => match (bits(1)?, bits(2)?) {
                (0, _) => Err("every 0 bits: a number from 1 up is expected".into()),
                (n, r) => Ok(How::Every(n, r)),
            },
            (Some("first"), 2) => Ok(How::First(self.amount(at + 1)?)),
            (Some("last"), 2) => Ok(How::Last(self.amount(at + 1)?)),
            (Some("but"), 2) if self.word(at + 1) == Some("last") => Ok(How::ButLast),
            (Some("but"), 2) => Ok(How::But(bits(1)?)),
            _ => {
                Err("behind / is expected which due bits are turned: none, all, first N, last N, first N%, last N%, but N, but last or every N R"
                    .into())
            }
        }
    }

    /// A file name or a text, with or without quotes.
    pub fn name(&self, at: usize) -> String {
        self.tokens[at].written().into()
    }
}
