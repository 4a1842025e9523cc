//! One page as a class reads it: its class, as the proved library gives it, and the fields of its spare area; and all pages of an array,
//! classed again only where the bytes changed.
use bokuhira::{Class, Geometry, DATA, PAGE};
use std::sync::atomic::{AtomicU64, Ordering};

/// Kind of a page that drops its logical page.
const DROP: u8 = 3;

/// A page's class and the fields of its spare area. On a torn page the fields are only what stands there.
#[derive(Clone, Copy, PartialEq, Eq, Debug)]
pub struct Page {
    pub class: Class,
    pub lpn: u16,
    pub cnt: u16,
    pub id: u32,
    pub ver: u32,
    pub kind: u8,
    pub reserved: u8,
    pub zeros: u16,
}

impl Page {
    pub fn read(b: &[u8]) -> Page {
        let half = |at: usize| u16::from_le_bytes([b[at], b[at + 1]]);
        let word = |at: usize| u32::from_le_bytes([b[at], b[at + 1], b[at + 2], b[at + 3]]);
        let class = Class::of(b).expect("a page of 528 bytes");
        Page { class, lpn: half(512), cnt: half(514), id: word(516), ver: word(520), kind: b[524], reserved: b[525], zeros: half(526) }
    }

    /// The zero bits counted, as they follow from the class.
    pub fn counted(&self) -> i32 {
        match self.class {
            Class::Erased => 0,
            Class::Whole => self.zeros.into(),
            Class::Torn(by) => i32::from(self.zeros) - by,
        }
    }

    pub fn is_whole(&self) -> bool {
        self.class == Class::Whole
    }

    pub fn is_torn(&self) -> bool {
        matches!(self.class, Class::Torn(_))
    }

    pub fn is_drop(&self) -> bool {
        self.kind == DROP
    }

    /// Whether it is of a kind that changes and lone writes program: a write or a drop.
    pub fn is_of_change(&self) -> bool {
        self.kind == 0 || self.is_drop()
    }

    pub fn kind_word(&self) -> String {
        match self.kind {
            0 => "data".into(),
            1 => "map".into(),
            2 => "zone".into(),
            DROP => "drop".into(),
            k => k.to_string(),
        }
    }
}

/// The number of zero bits.
fn zeros(bytes: &[u8]) -> u32 {
    let words = bytes.chunks_exact(8);
    let rest: u32 = words.remainder().iter().map(|b| b.count_zeros()).sum();
    rest + words.map(|w| u64::from_le_bytes(w.try_into().unwrap()).count_zeros()).sum::<u32>()
}

/// The 528 bytes of a whole page with these 512 bytes of data and fields LPN, TxCnt, TxID, TxVer, Kind, Reserved.
pub fn whole_page(data: &[u8], lpn: u16, cnt: u16, id: u32, ver: u32, kind: u8, reserved: u8) -> Vec<u8> {
    let mut p = data[..DATA].to_vec();
    p.extend(lpn.to_le_bytes());
    p.extend(cnt.to_le_bytes());
    p.extend(id.to_le_bytes());
    p.extend(ver.to_le_bytes());
    p.extend([kind, reserved]);
    p.extend((zeros(&p) as u16).to_le_bytes());
    p
}

/// What a call did to the array.
#[derive(Clone, Copy, PartialEq, Eq, Debug)]
pub enum Op {
    Nothing,
    Program(usize),
    Erase(usize),
}

/// A number that was not given before.
fn stamp() -> u64 {
    static LAST: AtomicU64 = AtomicU64::new(0);
    LAST.fetch_add(1, Ordering::Relaxed)
}

/// The pages of an array, kept beside a copy of its bytes. A page whose bytes change gets a new stamp.
#[derive(Clone)]
pub struct Pages {
    bytes: Vec<u8>,
    pub list: Vec<Page>,
    pub stamps: Vec<u64>,
}

impl Pages {
    pub fn of(array: &[u8]) -> Pages {
        let list: Vec<Page> = array.chunks_exact(PAGE).map(Page::read).collect();
        Pages { bytes: array.to_vec(), stamps: list.iter().map(|_| stamp()).collect(), list }
    }

    /// Follows the array, and gives what was done to it since: a call does at most one program or erase.
    pub fn follow(&mut self, array: &[u8], g: Geometry) -> Op {
        if array.len() != self.bytes.len() {
            *self = Pages::of(array);
            return Op::Nothing;
        }
        let mut op = Op::Nothing;
        for (k, (old, new)) in self.bytes.chunks_exact_mut(PAGE).zip(array.chunks_exact(PAGE)).enumerate() {
            if old != new {
                old.copy_from_slice(new);
                (self.list[k], self.stamps[k]) = (Page::read(new), stamp());
                op = if self.list[k].class == Class::Erased { Op::Erase(k / g.pages as usize) } else { Op::Program(k) };
            }
        }
        op
    }
}
