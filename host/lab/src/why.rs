//! Why a recovery is refused: which bound for 1, what stands in the front for 2, which entry or block for 3, which page and which clause
//! for 4. A diagnosis beside the proved answer, worked out from the table of refusals in document 01 (docs/PAPERS.md); the proved
//! answer decides.
use crate::{
    checkpoints::{complete, is_page, newest, Checkpoint},
    pages::Page,
    ranges,
    words::{class_words, page_name, page_words, plural, refusal_words},
};
use bokuhira::{Geometry, Refusal, Store, CHANGE_PAGES, DATA, PAGE, UNMAPPED};
use std::collections::{BTreeSet, HashMap};

#[derive(Clone, PartialEq, Eq, Debug)]
pub struct Why {
    pub refusal: Refusal,
    /// What is wrong, and where.
    pub words: String,
    /// The pages at fault.
    pub pages: Vec<usize>,
}

impl Why {
    /// As in "recover refuses: 4 bad page".
    pub fn short(&self) -> String {
        format!("recover refuses: {}", refusal_words(self.refusal))
    }

    /// As in "recover refuses: 4 bad page: page 16 (block 2, page 0): Kind 1".
    pub fn sentence(&self) -> String {
        let colon = if self.words.is_empty() { "" } else { ": " };
        self.short() + colon + &self.words
    }
}

/// Why a recovery of that geometry is refused; none where it is not. `pages` are those of the array.
pub fn recover(g: Geometry, store: &Store, pages: &[Page]) -> Option<Why> {
    let why = |number: u8, words: String, pages: Vec<usize>| Some(Why { refusal: Refusal(number), words, pages });
    if let Some(words) = ranges::lent(g, store) {
        return why(1, words, vec![]);
    }
    let list = complete(g, &store.array, pages);
    let Some(taken) = newest(&list).map(|i| &list[i]) else { return why(2, front(g, pages), vec![]) };
    if let Some((k, words)) = bad_checkpoint(g, &store.array, taken) {
        return why(3, format!("{}, {}: {words}", page_name(g, k), page_words(&pages[k])), vec![k]);
    }
    let per_block = g.pages as usize;
    let blocks = taken.unavailable.iter().chain(&taken.available).map(|b| *b as usize);
    let bad = bad_pages(g, pages, blocks.flat_map(|b| b * per_block..(b + 1) * per_block));
    let (k, words) = bad.first()?;
    let more = if bad.len() > 1 { format!(" (and {} more)", bad.len() - 1) } else { String::new() };
    why(4, format!("{}: {words}{more}", page_name(g, *k)), bad.iter().map(|(k, _)| *k).collect())
}

/// What stands in both front blocks, where no checkpoint is complete.
fn front(g: Geometry, pages: &[Page]) -> String {
    let p = g.pages as usize;
    let mut parts: Vec<String> = (0..2).map(|b| front_block(g, &pages[b * p..(b + 1) * p], b)).collect();
    // a zone page tells how many map pages its checkpoint has, and so the logical pages within 256
    let other = pages[..2 * p].iter().position(|z| z.is_whole() && z.kind == 2 && (1..=4).contains(&z.lpn) && z.cnt == z.lpn + 1);
    if let Some(m) = other.map(|k| pages[k].lpn as usize).filter(|m| *m != g.map_pages()) {
        let (from, to) = (256 * (m - 1) + 1, 256 * m);
        let pages = plural(m, "map page");
        parts.push(format!("a zone page for {pages} stands there, so for {from} to {to} logical pages, and {} were given", g.logical));
    }
    parts.join("; ")
}

/// How many pages of each class a front block has, and the newest checkpoint of which it has a part.
fn front_block(g: Geometry, pages: &[Page], b: usize) -> String {
    let count = |word: &'static str| (pages.iter().filter(|p| p.class.word() == word).count(), word);
    let classes = ["whole", "torn", "erased"].map(count).into_iter().filter(|(n, _)| *n > 0);
    let classes: Vec<String> = classes.map(|(n, word)| format!("{n} {word}")).collect();
    // each page of a checkpoint says at which page its checkpoint would begin
    let is_part = |k: &usize| pages[*k].lpn as usize <= *k && is_page(g, &pages[*k], pages[*k].lpn as usize, pages[*k].ver);
    let parts: BTreeSet<(u32, usize)> = (0..pages.len()).filter(is_part).map(|k| (pages[k].ver, k - pages[k].lpn as usize)).collect();
    let newest = parts.last().map_or(String::new(), |(number, first)| {
        let all: Vec<String> = (0..=g.map_pages()).map(|i| front_page(g, pages, *number, first + i, i)).collect();
        let more = if parts.len() > 1 { format!("; parts of {} more", parts.len() - 1) } else { String::new() };
        format!(" (checkpoint {number}: {}{more})", all.join(", "))
    });
    format!("front block {b}: {} pages{newest}", classes.join(", "))
}

/// What stands where page `i` of a checkpoint should be.
fn front_page(g: Geometry, pages: &[Page], number: u32, k: usize, i: usize) -> String {
    let name = if i == g.map_pages() { "zone page".into() } else { format!("map page {i}") };
    match pages.get(k) {
        None => format!("{name} past the block's end"),
        Some(p) if p.is_whole() && !is_page(g, p, i, number) => format!("no {name} but {}", page_words(p)),
        Some(p) => format!("{name} {}", class_words(p.class)),
    }
}

/// The page of a checkpoint that refusal 3 is about, and what is wrong there.
fn bad_checkpoint(g: Geometry, array: &[u8], c: &Checkpoint) -> Option<(usize, String)> {
    let (m, logical) = (g.map_pages(), g.logical as usize);
    let entry = |i: usize| {
        let at = (c.first + i / 256) * PAGE + 2 * (i % 256);
        u16::from_le_bytes([array[at], array[at + 1]])
    };
    let entries: Vec<u16> = (0..256 * m).map(entry).collect();
    let unused = || {
        let i = (logical..entries.len()).find(|i| entries[*i] != UNMAPPED)?;
        let used = if logical == 1 { "only entry 0 is used".into() } else { format!("only entries 0 to {} are used", logical - 1) };
        Some((i, format!(" says page {}, but with {} {used}", entries[i], plural(logical, "logical page"))))
    };
    let used = || ranges::map(g, &entries[..logical]).map(|(i, words)| (i, format!(": {words}")));
    if let Some((i, words)) = used().or_else(unused) {
        return Some((c.first + i / 256, format!("entry {i}{words}")));
    }
    let zone = c.first + m;
    let data = &array[zone * PAGE..][..DATA];
    let counts = [5, 6, 7].map(|i| data[i] as usize);
    let rest = || {
        let i = (8 + counts.iter().sum::<usize>()..DATA).find(|i| data[*i] != 0)?;
        Some(format!("byte {i} behind the lists is {}: zero is expected", data[i]))
    };
    ranges::zones(g, counts, [&c.available, &c.unavailable, &c.free], c.pointer).or_else(rest).map(|words| (zone, words))
}

/// The scanned whole pages that refusal 4 is about, each with its clause.
pub fn bad_pages(g: Geometry, pages: &[Page], scan: impl Iterator<Item = usize>) -> Vec<(usize, String)> {
    let (mut marks, mut versions, mut numbers) = (HashMap::new(), HashMap::new(), HashMap::new());
    let mut bad = Vec::new();
    for k in scan.filter(|k| pages[*k].is_whole()) {
        let p = &pages[k];
        let mark = if p.id != 0 && p.cnt != 0 { marks.insert(p.id, k) } else { None };
        let version = if p.ver != 0 { versions.insert(p.ver, k) } else { None };
        let number = if g.planes == 2 && p.id != 0 { numbers.insert((p.id, p.reserved), k) } else { None };
        let again = || match (mark, version, number) {
            (Some(first), ..) => Some(format!("second mark of identifier {}, after page {first}", p.id)),
            (_, Some(first), _) => Some(format!("TxVer {} a second time, after page {first}", p.ver)),
            (.., Some(first)) => Some(format!("write number {} of identifier {} a second time, after page {first}", p.reserved, p.id)),
            _ => None,
        };
        bad.extend(clause(g, p).or_else(again).map(|words| (k, words)));
    }
    bad
}

/// On two planes Reserved of a change's page is its write number, else 0.
fn number_good(g: Geometry, p: &Page) -> bool {
    if g.planes == 2 && p.id != 0 {
        (1..=CHANGE_PAGES).contains(&(p.reserved as usize))
    } else {
        p.reserved == 0
    }
}

/// What refusal 4 sees on a page by itself.
fn clause(g: Geometry, p: &Page) -> Option<String> {
    let top = 0xFFFF_FFFF;
    match p {
        _ if !p.is_of_change() => Some(format!("Kind {}", p.kind)),
        _ if !number_good(g, p) => Some(format!("Reserved {}", p.reserved)),
        _ if p.lpn >= g.logical => Some(format!("LPN {}, with {}", p.lpn, plural(g.logical as usize, "logical page"))),
        _ if (p.cnt == 0) != (p.ver == 0) => Some(format!("TxCnt {} with TxVer {}: only one is zero", p.cnt, p.ver)),
        _ if p.id == top => Some(format!("TxID {top}")),
        _ if p.ver == top => Some(format!("TxVer {top}")),
        _ if p.id == 0 && p.cnt != 1 => Some(format!("TxID 0 with TxCnt {}", p.cnt)),
        _ => None,
    }
}

#[cfg(test)]
mod tests {
    use super::*;
    use crate::{
        lot::{all_met, form, Lot},
        pages::Pages,
    };
    use bokuhira::Answer;
    use std::collections::HashSet;

    fn answer(g: Geometry, store: &Store) -> Option<u8> {
        match store.clone().recover(g) {
            Answer::Refused(r) => Some(r.0),
            _ => None,
        }
    }

    fn diagnosed(g: Geometry, store: &Store) -> Option<Why> {
        recover(g, store, &Pages::of(&store.array).list)
    }

    #[test]
    fn a_reason_is_found_exactly_when_the_proved_recover_refuses() {
        let mut met = HashSet::new();
        let mut times = [0; 5];
        for seed in 0..20000 {
            let mut lot = Lot(seed);
            let g = lot.geometry();
            let mut store = lot.lived(g);
            for _ in 0..lot.below(5) {
                lot.spoil_array(g, &mut store);
            }
            let near = match lot.below(12) {
                0 => Geometry { blocks: lot.below(140) as u16, ..g },
                1 => Geometry { pages: lot.below(70) as u16, ..g },
                2 => Geometry { logical: lot.below(1100) as u16, ..g },
                3 => Geometry { planes: lot.below(4) as u16, ..g },
                _ => g,
            };
            if lot.below(20) == 0 {
                store.hold.truncate(lot.below(4096) as usize);
            }
            if near.logical != g.logical && lot.below(2) == 0 {
                store.map.resize(near.logical as usize, UNMAPPED);
            }
            let why = diagnosed(near, &store);
            assert_eq!(why.as_ref().map(|w| w.refusal.0), answer(near, &store), "seed {seed}: {why:?}");
            let Some(why) = why else { continue };
            times[why.refusal.0 as usize] += 1;
            met.insert(form(&why.words));
            // without the pages at fault there is no refusal 4
            if why.refusal.0 == 4 {
                why.pages.iter().for_each(|k| store.array[k * PAGE..(k + 1) * PAGE].fill(0xFF));
                assert!(answer(near, &store).is_none(), "seed {seed}: {why:?}");
            }
        }
        assert!(times[1..].iter().all(|n| *n > 100), "{times:?}");
        all_met(
            &met,
            &[
                "# blocks: # to # are allowed",
                "# pages a block:",
                "# logical pages with # blocks of # pages: # to # are allowed",
                "# planes: # to # are allowed",
                "an array of # bytes",
                "a map of # entries",
                "a hold of # bytes",
                "front block #: # whole, # torn, # erased pages (checkpoint #: ",
                "map page # whole, zone page torn by #",
                "map page # torn by -#, zone page whole",
                "no zone page but map page # of checkpoint #",
                "; parts of # more)",
                "a zone page for # map pages stands there, so for # to # logical pages, and # were given",
                "map page # of checkpoint #: entry #: page # is in no data block",
                "entry #: page # stands in entry # already",
                "entry # says page #, but with # logical pages only entries # to # are used",
                "zone page of checkpoint #: # available, # unavailable and # free blocks: there are # data blocks",
                "# available blocks: at most three are allowed",
                "available block #: data blocks are # to #",
                "block # is listed twice",
                "not ascending",
                "pointer #: data blocks are # to #",
                "byte # behind the lists is #",
                "Kind #",
                "Reserved #",
                "LPN #, with # logical pages",
                "only one is zero",
                "TxID #",
                "TxVer #",
                "TxID # with TxCnt #",
                "second mark of identifier #, after page #",
                "TxVer # a second time, after page #",
                "write number # of identifier # a second time, after page #",
                "(and # more)",
            ],
        );
    }
}
