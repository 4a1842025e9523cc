//! The complete checkpoints in the front.
use crate::pages::Page;
use bokuhira::{Geometry, DATA, PAGE};

/// A complete checkpoint in a front block, with its zone page's numbers as they stand there.
#[derive(Clone, PartialEq, Eq, Debug)]
pub struct Checkpoint {
    /// The page number of its first page.
    pub first: usize,
    pub number: u32,
    pub last_version: u32,
    pub pointer: u8,
    pub available: Vec<u8>,
    pub unavailable: Vec<u8>,
    pub free: Vec<u8>,
}

/// Whether a page is page `i` of a checkpoint of that number: M map pages, then the zone page.
pub fn is_page(g: Geometry, page: &Page, i: usize, number: u32) -> bool {
    let m = g.map_pages();
    let (kind, cnt) = if i == m { (2, m + 1) } else { (1, 0) };
    page.is_whole() && (page.lpn as usize, page.cnt as usize, page.id, page.ver, page.kind, page.reserved) == (i, cnt, 0, number, kind, 0)
}

/// The complete checkpoints of both front blocks, in page order.
pub fn complete(g: Geometry, array: &[u8], pages: &[Page]) -> Vec<Checkpoint> {
    let (p, m) = (g.pages as usize, g.map_pages());
    let is_complete = |first: &usize| first % p + m < p && (0..=m).all(|i| is_page(g, &pages[first + i], i, pages[*first].ver));
    (0..2 * p).filter(is_complete).map(|first| read(first, pages[first].ver, &array[(first + m) * PAGE..][..DATA])).collect()
}

/// The numbers on a zone page's data.
fn read(first: usize, number: u32, data: &[u8]) -> Checkpoint {
    let (a, u, f) = (data[5] as usize, data[6] as usize, data[7] as usize);
    let list = |from: usize, n: usize| data[(8 + from).min(DATA)..(8 + from + n).min(DATA)].to_vec();
    Checkpoint {
        first,
        number,
        last_version: u32::from_le_bytes([data[0], data[1], data[2], data[3]]),
        pointer: data[4],
        available: list(0, a),
        unavailable: list(a, u),
        free: list(a + u, f),
    }
}

/// Which of them a recovery takes: the highest number, the first in page order if two share it.
pub fn newest(list: &[Checkpoint]) -> Option<usize> {
    (0..list.len()).rev().max_by_key(|i| list[*i].number)
}
