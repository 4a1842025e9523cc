//! One page: its class, its spare area, and how it is programmed.
use crate::{DATA, PAGE, UNMAPPED};

pub type Page = [u8; PAGE];

/// A page of nothing but zero bits has this many before Zeros.
const MOST_ZEROS: u32 = 526 * 8;
/// Kind of a page that drops its logical page.
const DROP: u8 = 3;

/// What a page is; of a torn one, Zeros minus the zero bits counted.
#[derive(Clone, Copy, PartialEq, Eq, Debug)]
pub enum Class {
    Erased,
    Whole,
    Torn(i32),
}

/// The spare area up to Zeros, which follows from what stands before it.
#[derive(Clone, Copy, PartialEq, Eq)]
pub struct Spare {
    pub lpn: u16,
    pub count: u16,
    pub id: u32,
    pub version: u32,
    pub kind: u8,
    pub reserved: u8,
}

impl Spare {
    pub fn of(page: &Page) -> Spare {
        Spare {
            lpn: u16::from_le_bytes([page[512], page[513]]),
            count: u16::from_le_bytes([page[514], page[515]]),
            id: id_of(page),
            version: u32::from_le_bytes([page[520], page[521], page[522], page[523]]),
            kind: page[524],
            reserved: page[525],
        }
    }

    /// The spare area of a data page.
    pub fn data(lpn: u16, count: u16, id: u32, version: u32) -> Spare {
        Spare { lpn, count, id, version, kind: 0, reserved: 0 }
    }

    /// The spare area of a page that drops its logical page.
    pub fn dropping(lpn: u16, count: u16, id: u32, version: u32) -> Spare {
        Spare { kind: DROP, ..Spare::data(lpn, count, id, version) }
    }

    pub fn is_drop(self) -> bool {
        self.kind == DROP
    }
}

/// What a page's logical page is mapped to once it is entered.
pub fn leads(drop: bool, ppn: u16) -> u16 {
    if drop {
        UNMAPPED
    } else {
        ppn
    }
}

/// TxID alone, for looking through many pages.
pub fn id_of(page: &Page) -> u32 {
    u32::from_le_bytes([page[516], page[517], page[518], page[519]])
}

/// The zero bits of the first 526 bytes: those of the spare area before Zeros, then those of the data.
fn zeros(page: &Page) -> u32 {
    let (words, _) = page.as_chunks::<8>();
    let [data @ .., first, last] = words else { unreachable!("a page is 66 words") };
    let before_zeros = u64::from_le_bytes(*last) | 0xFFFF << 48;
    let spare = u64::from_le_bytes(*first).count_zeros() + before_zeros.count_zeros();
    spare + data.iter().map(|w| u64::from_le_bytes(*w).count_zeros()).sum::<u32>()
}

/// Zeros, as it stands on the page.
fn said(page: &Page) -> u32 {
    u16::from_le_bytes([page[526], page[527]]).into()
}

pub fn class(page: &Page) -> Class {
    match said(page) as i32 - zeros(page) as i32 {
        _ if is_erased(page) => Class::Erased,
        0 => Class::Whole,
        by => Class::Torn(by),
    }
}

/// Whether Zeros agrees. On an erased page and on many a torn one Zeros is higher than any count, so that no bits need be counted.
pub fn is_whole(page: &Page) -> bool {
    let said = said(page);
    said <= MOST_ZEROS && zeros(page) == said
}

/// Whether every byte is 0xFF. A programmed page shows it in its last bytes.
pub fn is_erased(page: &Page) -> bool {
    let (words, _) = page.as_chunks::<8>();
    words[65] == [0xFF; 8] && words.iter().fold(!0, |all, w| all & u64::from_ne_bytes(*w)) == !0
}

/// Programs an erased page.
pub fn program(page: &mut Page, data: &[u8], spare: Spare) {
    page[..DATA].copy_from_slice(data);
    seal(page, spare);
}

/// Completes a page whose data stand in it already. The spare area is stored in the words in which it is counted.
pub fn seal(page: &mut Page, spare: Spare) {
    let first = spare.lpn as u64 | (spare.count as u64) << 16 | (spare.id as u64) << 32;
    let last = spare.version as u64 | (spare.kind as u64) << 32 | (spare.reserved as u64) << 40;
    page[512..520].copy_from_slice(&first.to_le_bytes());
    page[520..528].copy_from_slice(&last.to_le_bytes());
    let zeros = zeros(page) as u16;
    page[526..528].copy_from_slice(&zeros.to_le_bytes());
}
