//! Full arrays of many kinds, most of which no layer makes: every scanned page is whole, and every version above the checkpoint's.
use crate::array::{checkpointed, put, scan_order, spare, whole_page};
use crate::setup::Random;
use bokuhira::{Geometry, Zones, UNMAPPED};

/// What a page says of its change: TxCnt, TxID, TxVer, and on two planes its write number.
type Page = (u16, u32, u32, u8);

/// Makes the pages of an array, so many, in scan order.
type Kind = fn(usize, &mut Random) -> Vec<Page>;

pub const KINDS: [(&str, Kind); 9] = [
    ("lone pages, 8 open changes", |n, _| mixed(n)),
    ("changes of 1 to 8 pages, identifiers from a counter", |n, random| changes(n, random, |before, _| before + 1)),
    ("changes of 1 to 8 pages, random identifiers", |n, random| changes(n, random, |_, random| any_id(random))),
    ("changes of one page, identifiers shuffled", |n, random| short(shuffled(n, random), rising(n))),
    ("changes of 1 to 8 pages, two blocks written in turn", |n, random| in_turn(changes(n, random, |before, _| before + 1))),
    ("lone pages, versions falling", |n, _| short(vec![0; n], falling(n))),
    ("changes of one page, random identifiers, versions shuffled", |n, random| short((0..n).map(|_| any_id(random)).collect(), shuffled(n, random))),
    ("changes of one page, identifiers 1 modulo 2047", |n, random| short(one_modulo(2047, n, random), rising(n))),
    ("changes of one page, identifiers 1 modulo 2047, versions falling", |n, random| short(one_modulo(2047, n, random), falling(n))),
];

/// An array of one kind, with every data block listed and full.
pub fn full(g: Geometry, kind: Kind) -> Vec<u8> {
    let last = g.blocks as u8 - 3;
    let zones = Zones { available: (last..last + 3).collect(), unavailable: (2..last).collect(), free: vec![], pointer: 2 };
    let mut array = checkpointed(g, &vec![UNMAPPED; g.logical as usize], 0, &zones);
    let order = scan_order(g, &zones);
    let mut random = Random::new(7);
    for ((count, id, version, number), k) in kind(order.len(), &mut random).into_iter().zip(order) {
        let lpn = random.below(g.logical as u64) as u16;
        put(&mut array, k, &whole_page(&random.page(), &spare(lpn, count, id, version, 0, if g.planes == 2 { number } else { 0 })));
    }
    array
}

/// Lone pages, and now and then a page of one of eight open changes.
fn mixed(n: usize) -> Vec<Page> {
    (0..n as u32).map(|s| if s % 32 == 0 { (0, 1 + s / 32 % 8, 0, 1 + (s / 256) as u8) } else { (1, 0, s + 1, 0) }).collect()
}

/// Changes of one page; identifier 0 makes it a lone one.
fn short(ids: Vec<u32>, versions: Vec<u32>) -> Vec<Page> {
    ids.into_iter().zip(versions).map(|(id, version)| (1, id, version, (id != 0) as u8)).collect()
}

/// Changes of 1 to 8 pages, seven of them open at a time; each identifier is made from the one before.
fn changes(n: usize, random: &mut Random, next: fn(u32, &mut Random) -> u32) -> Vec<Page> {
    // identifier, pages and how many of them are to come
    let mut open = [(0, 0, 0); 7];
    let (mut id, mut version) = (0, 0);
    let mut page = |_| {
        let change = &mut open[random.below(7) as usize];
        if change.2 == 0 {
            id = next(id, random);
            let pages = 1 + random.below(8) as u16;
            *change = (id, pages, pages);
        }
        change.2 -= 1;
        let number = (change.1 - change.2) as u8;
        if change.2 > 0 {
            return (0, change.0, 0, number);
        }
        version += 1;
        (change.1, change.0, version, number)
    };
    (0..n).map(&mut page).collect()
}

/// The same pages where each two blocks of 64 are written in turn: page 0 of both, then page 1 of both.
fn in_turn(pages: Vec<Page>) -> Vec<Page> {
    pages.chunks(2 * 64).flat_map(|pair| pair.iter().step_by(2).chain(pair.iter().skip(1).step_by(2))).copied().collect()
}

fn rising(n: usize) -> Vec<u32> {
    (1..=n as u32).collect()
}

fn falling(n: usize) -> Vec<u32> {
    (1..=n as u32).rev().collect()
}

fn shuffled(n: usize, random: &mut Random) -> Vec<u32> {
    let mut numbers = rising(n);
    for i in (1..n).rev() {
        numbers.swap(i, random.below(i as u64 + 1) as usize);
    }
    numbers
}

fn any_id(random: &mut Random) -> u32 {
    1 + random.below(0xFFFF_FFFE) as u32
}

fn one_modulo(m: u32, n: usize, random: &mut Random) -> Vec<u32> {
    shuffled(n, random).into_iter().map(|k| 1 + m * k).collect()
}
