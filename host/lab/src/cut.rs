//! Power cuts: the due bits of a call's one operation, which of them a cut turns, and what is told of it.
use crate::{
    pages::Op,
    words::{page_name, plural},
};
use bokuhira::{Geometry, PAGE};

#[derive(Clone, Copy, PartialEq, Eq, Debug)]
pub enum Amount {
    Bits(usize),
    Percent(usize),
}

impl Amount {
    fn of(self, all: usize) -> usize {
        match self {
            Amount::Bits(n) => n,
            Amount::Percent(n) => all * n / 100,
        }
    }
}

/// Which of the due bits are turned. They are in order, lowest byte first, bit 0 first.
#[derive(Clone, Copy, PartialEq, Eq, Debug)]
pub enum How {
    None,
    All,
    Every(usize, usize),
    First(Amount),
    Last(Amount),
    But(usize),
    ButLast,
}

impl How {
    /// Whether the due bit at this index, of so many, is turned.
    pub fn turns(self, at: usize, all: usize) -> bool {
        match self {
            How::None => false,
            How::All => true,
            How::Every(n, r) => at % n == r,
            How::First(n) => at < n.of(all),
            How::Last(n) => at + n.of(all) >= all,
            How::But(n) => at != n,
            How::ButLast => at + 1 != all,
        }
    }
}

/// What a cut leaves: of the call's operation the bits that `how` turns, or nothing where it falls before that begins; of pages that run the
/// bits of each, all of them where a page is not named.
#[derive(Clone, PartialEq, Eq, Debug)]
pub struct Left {
    pub early: bool,
    pub how: How,
    pub running: Vec<(usize, How)>,
}

impl From<How> for Left {
    fn from(how: How) -> Left {
        Left { early: false, how, running: Vec::new() }
    }
}

/// A page that ran when the power failed: of how many due bits how many were turned.
#[derive(Clone, PartialEq, Eq, Debug)]
pub struct Ran {
    pub page: usize,
    pub due: usize,
    pub turned: usize,
}

impl Ran {
    /// As in "page 17 (block 2, page 1) ran: 208 of 4161 due bits turned".
    pub fn words(&self, g: Geometry) -> String {
        format!("{} ran: {} of {} turned", page_name(g, self.page), self.turned, plural(self.due, "due bit"))
    }
}

/// A cut that fell, for those who look at it later.
#[derive(Clone, PartialEq, Eq, Debug)]
pub struct Cut {
    pub what: String,
    pub op: Op,
    /// The due bits, as bit numbers of the array, and of each whether it was turned.
    pub due: Vec<u32>,
    pub turned: Vec<bool>,
    /// What is said of it where no bit was due.
    pub nothing: String,
    pub ran: Vec<Ran>,
}

/// The parts of a page by name: first byte and the byte past the last.
const FIELDS: [(&str, usize, usize); 8] = [
    ("data", 0, 512),
    ("LPN", 512, 514),
    ("TxCnt", 514, 516),
    ("TxID", 516, 520),
    ("TxVer", 520, 524),
    ("Kind", 524, 525),
    ("Reserved", 525, 526),
    ("Zeros", 526, 528),
];

impl Cut {
    /// As in "208 of 4161 due bits turned".
    pub fn turned_words(&self) -> String {
        format!("{} of {} turned", self.turned.iter().filter(|t| **t).count(), plural(self.due.len(), "due bit"))
    }

    /// All of it, by part of the page or by page; with every byte if its bits are asked for.
    pub fn words(&self, g: Geometry, bits: bool) -> String {
        let mut text = format!("{}\n", self.what);
        let ran: String = self.ran.iter().map(|r| format!("  {}\n", r.words(g))).collect();
        match self.op {
            Op::Nothing => return text + &format!("  {}\n", self.nothing) + &ran,
            Op::Program(k) => {
                text += &format!("  in the program of {}: {}\n", page_name(g, k), self.turned_words());
                for (name, from, to) in FIELDS {
                    text += &self.part(&format!("{name:<8}"), k * PAGE + from, k * PAGE + to);
                }
            }
            Op::Erase(b) => {
                text += &format!("  in the erase of block {b}: {}\n", self.turned_words());
                let page = |bit: Option<&u32>| bit.map_or(0, |bit| *bit as usize / 8 / PAGE);
                for k in page(self.due.first())..=page(self.due.last()) {
                    text += &self.part(&format!("page {k:4}"), k * PAGE, (k + 1) * PAGE);
                }
            }
        }
        text += &ran;
        if bits {
            text += &self.bits();
        }
        text
    }

    /// How many bits of these bytes were due and turned.
    fn part(&self, name: &str, from: usize, to: usize) -> String {
        let inside = |bit: u32| (from..to).contains(&(bit as usize / 8));
        let due = self.due.iter().filter(|bit| inside(**bit)).count();
        let turned = self.due.iter().zip(&self.turned).filter(|(bit, t)| inside(**bit) && **t).count();
        format!("  {name}  {turned:4} of {due:4} due bits turned\n")
    }

    fn bits(&self) -> String {
        let mut text = String::from("  byte by byte, highest bit first: 1 due and turned, 0 due and not turned, . not due\n");
        let mut lines: Vec<(usize, [u8; 8])> = Vec::new();
        for (bit, turned) in self.due.iter().zip(&self.turned) {
            let byte = *bit as usize / 8;
            if lines.last().is_none_or(|(b, _)| *b != byte) {
                lines.push((byte, *b"........"));
            }
            lines.last_mut().unwrap().1[7 - *bit as usize % 8] = if *turned { b'1' } else { b'0' };
        }
        for group in lines.chunk_by(|a, b| a.0 / 8 == b.0 / 8) {
            let at = group[0].0 / 8 * 8;
            let shown: Vec<String> = (at..at + 8)
                .map(|i| group.iter().find(|(b, _)| *b == i).map_or("........".into(), |(_, l)| String::from_utf8_lossy(l).into_owned()))
                .collect();
            text += &format!("  page {:4} byte {:3}  {}\n", at / PAGE, at % PAGE, shown.join(" "));
        }
        text
    }
}

/// The bits in which two arrays differ, in order.
pub fn due_bits(before: &[u8], after: &[u8]) -> Vec<u32> {
    let mut due = Vec::new();
    for (k, (old, new)) in before.chunks(PAGE).zip(after.chunks(PAGE)).enumerate() {
        if old != new {
            for (i, (x, y)) in old.iter().zip(new).enumerate() {
                due.extend((0..8).filter(|bit| (x ^ y) >> bit & 1 == 1).map(|bit| ((k * PAGE + i) * 8 + bit) as u32));
            }
        }
    }
    due
}

/// Turns one bit of an array.
pub fn turn(array: &mut [u8], bit: u32) {
    array[bit as usize / 8] ^= 1 << (bit % 8);
}
