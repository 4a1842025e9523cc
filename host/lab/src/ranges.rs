//! What refusals 1 and 3 ask of geometry, lengths, map and zone lists; each function says what is out of range, or nothing.
use crate::words::numbers;
use bokuhira::{Geometry, Store, HOLD, UNMAPPED};
use std::collections::HashMap;

fn outside(n: usize, what: &str, from: usize, to: usize) -> Option<String> {
    (!(from..=to).contains(&n)).then(|| format!("{n} {what}: {from} to {to} are allowed"))
}

pub fn geometry(g: Geometry) -> Option<String> {
    let most = (g.blocks as usize).saturating_sub(6) * g.pages as usize;
    outside(g.blocks as usize, "blocks", 8, 128)
        .or_else(|| outside(g.pages as usize, "pages a block", 8, 64))
        .or_else(|| outside(g.logical as usize, &format!("logical pages with {} blocks of {} pages", g.blocks, g.pages), 1, most.min(1024)))
        .or_else(|| outside(g.planes as usize, "planes", 1, 2))
}

/// Geometry and buffer lengths: all that recover looks at for refusal 1.
pub fn lent(g: Geometry, store: &Store) -> Option<String> {
    let lengths = [
        ("an array", store.array.len(), "bytes", g.array_len()),
        ("a map", store.map.len(), "entries", g.logical as usize),
        ("a hold", store.hold.len(), "bytes", HOLD),
    ];
    let wrong = |(what, found, unit, expected): (&str, usize, &str, usize)| {
        (found != expected).then(|| format!("{what} of {found} {unit}: {expected} are expected"))
    };
    geometry(g).or_else(|| lengths.into_iter().find_map(wrong))
}

/// A number that must be a page of a data block.
pub fn data_page(g: Geometry, k: u16) -> Option<String> {
    let (from, to) = (2 * g.pages as usize, g.blocks as usize * g.pages as usize);
    (!(from..to).contains(&(k as usize))).then(|| format!("page {k} is in no data block: these are pages {from} to {}", to - 1))
}

/// The first entry of a map that is out of range or stands there twice, and what is wrong with it.
pub fn map(g: Geometry, entries: &[u16]) -> Option<(usize, String)> {
    let mut seen = HashMap::new();
    entries.iter().enumerate().filter(|(_, k)| **k != UNMAPPED).find_map(|(i, k)| {
        let again = seen.insert(*k, i).map(|first| format!("page {k} stands in entry {first} already"));
        data_page(g, *k).or(again).map(|what| (i, what))
    })
}

/// Zone lists with the counts that were said of them, and the pointer.
pub fn zones(g: Geometry, counts: [usize; 3], lists: [&[u8]; 3], pointer: u8) -> Option<String> {
    let [a, u, f] = counts;
    let (data, last) = (g.blocks as usize - 2, g.blocks - 1);
    if a + u + f > data {
        return Some(format!("{a} available, {u} unavailable and {f} free blocks: there are {data} data blocks"));
    }
    if a > 3 {
        return Some(format!("{a} available blocks: at most three are allowed"));
    }
    let in_range = |b: u8| (2..g.blocks).contains(&(b as u16));
    let mut seen = Vec::new();
    for (list, word) in lists.iter().zip(["available", "unavailable", "free"]) {
        for b in *list {
            if !in_range(*b) {
                return Some(format!("{word} block {b}: data blocks are 2 to {last}"));
            }
            if seen.contains(b) {
                return Some(format!("{word} block {b} is listed twice"));
            }
            seen.push(*b);
        }
    }
    if !lists[2].is_sorted() {
        return Some(format!("free blocks {}: not ascending", numbers(lists[2])));
    }
    (!in_range(pointer)).then(|| format!("pointer {pointer}: data blocks are 2 to {last}"))
}
