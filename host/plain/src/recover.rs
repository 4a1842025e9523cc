//! Recovery: the newest complete checkpoint, and what was committed after it.
use crate::checkpoint::{spare, ENTRIES};
use crate::flash::{pages, Geometry, MOST_LOGICAL};
use crate::frame;
use crate::page::{is_whole, leads, Page, Spare};
use crate::state::State;
use crate::zones::Zones;
use crate::{ensure, Answer, Outcome, Refusal, DATA, LAST, LONGEST, STATE, UNMAPPED};
use std::ops::RangeInclusive;

/// What a scan finds, and how it is redone.
pub trait Scan<'a>: Sized {
    /// Scans the listed blocks; refusal 4 where a whole page is bad.
    fn scan(pages: &'a [Page], g: Geometry, zones: Zones<'a>) -> Result<Self, Refusal>;

    /// The highest version, or 0.
    fn highest(&self) -> u32;

    /// Enters the pages of the committed transactions above the floor.
    fn redo(&self, floor: u32, map: &mut [u16]);
}

pub fn recover<'a, S: Scan<'a>>(array: &'a [u8], map: &mut [u16], hold: &[u8], mut state: State<&mut [u8; STATE]>, g: Geometry) -> Outcome {
    frame::lengths(g, array, map, hold)?;
    let pages = pages(array);
    let (number, at) = newest(pages, g).ok_or(Refusal::NoCheckpoint)?;
    let (map_pages, zone_page) = (&pages[at..at + g.map_pages()], &pages[at + g.map_pages()]);
    let (floor, zones) = Zones::on_page(zone_page.first_chunk::<DATA>().expect("a page has data"), g.blocks).ok_or(Refusal::BadCheckpoint)?;
    ensure(entries(map_pages).skip(g.logical).all(|e| e == UNMAPPED), Refusal::BadCheckpoint)?;
    ensure(frame::map_in_range(g, entries(map_pages).take(g.logical)), Refusal::BadCheckpoint)?;
    let found = S::scan(pages, g, zones)?;

    for (to, entry) in map.iter_mut().zip(entries(map_pages)) {
        *to = entry;
    }
    found.redo(floor, map);
    state.clear(g);
    state.set_zones(&zones);
    state.set_version(found.highest().max(floor));
    state.set_checkpoint(number);
    state.set_front(at / g.pages, 0);
    Ok(Answer::Done)
}

/// Number and first page of the complete checkpoint of highest number, the first in page order if two share it.
fn newest(pages: &[Page], g: Geometry) -> Option<(u32, usize)> {
    let m = g.map_pages();
    let mut best = None;
    // from the last page down: the first complete one met in a block is most often its newest, and no older one is counted
    for at in (0..2).rev().flat_map(|b| (g.block(b).start..g.block(b).end - m).rev()) {
        let number = Spare::of(&pages[at + m]).version;
        let higher = best.is_none_or(|(highest, _)| number >= highest);
        if higher && (0..=m).all(|i| Spare::of(&pages[at + i]) == spare(g, i, number)) && pages[at..=at + m].iter().all(is_whole) {
            best = Some((number, at));
        }
    }
    best
}

/// The entries on the map pages of a checkpoint, the unused ones included.
fn entries(map_pages: &[Page]) -> impl Iterator<Item = u16> + '_ {
    map_pages.iter().flat_map(|p| p.as_chunks().0[..ENTRIES].iter().map(|e| u16::from_le_bytes(*e)))
}

/// A whole page of a scan.
struct Entry {
    id: u32,
    version: u32,
    count: u16,
    lpn: u16,
    /// Its write number on two planes, else 0.
    number: u8,
    /// What its logical page is mapped to once it is entered.
    leads: u16,
}

/// The whole pages, those of one transaction together and in the order in which they are applied, and the highest version.
pub struct Log {
    entries: Vec<Entry>,
    highest: u32,
}

impl Log {
    fn transactions(&self) -> impl Iterator<Item = &[Entry]> {
        // each page of TxID 0 is a transaction by itself
        self.entries.chunk_by(|a, b| a.id == b.id && a.id != 0)
    }
}

impl<'a> Scan<'a> for Log {
    fn scan(pages: &'a [Page], g: Geometry, zones: Zones<'a>) -> Result<Log, Refusal> {
        let room = g.pages * (zones.unavailable.len() + zones.available.len());
        let (mut entries, mut versions) = (Vec::with_capacity(room), Vec::with_capacity(room));
        for (ppn, page) in zones.scan(pages, g).filter(|(_, p)| is_whole(p)) {
            let s = Spare::of(page);
            ensure(good(s, g), Refusal::BadPage)?;
            entries.push(Entry {
                id: s.id,
                version: s.version,
                count: s.count,
                lpn: s.lpn,
                number: s.reserved,
                leads: leads(s.is_drop(), ppn as u16),
            });
            if s.version != 0 {
                versions.push(s.version);
            }
        }
        versions.sort_unstable();
        ensure(versions.windows(2).all(|w| w[0] != w[1]), Refusal::BadPage)?;
        // stable: on one plane, where no page has a number, the pages of one transaction stay in scan order
        entries.sort_by_key(|e| (e.id, e.number));
        let log = Log { entries, highest: versions.last().copied().unwrap_or(0) };
        ensure(log.transactions().all(|t| t.iter().filter(|p| p.count != 0).count() <= 1), Refusal::BadPage)?;
        let repeated = |t: &[Entry]| t.windows(2).any(|w| w[0].number == w[1].number);
        ensure(!g.two_planes() || !log.transactions().any(repeated), Refusal::BadPage)?;
        Ok(log)
    }

    fn highest(&self) -> u32 {
        self.highest
    }

    fn redo(&self, floor: u32, map: &mut [u16]) {
        // the version that each logical page was entered with: a lower one no longer enters
        let mut entered = [0; MOST_LOGICAL];
        for pages in self.transactions() {
            // 0 where it is not committed
            let version = pages.iter().find(|p| usize::from(p.count) == pages.len()).map_or(0, |mark| mark.version);
            if version <= floor {
                continue;
            }
            for page in pages {
                let lpn = usize::from(page.lpn);
                if version >= entered[lpn] {
                    (entered[lpn], map[lpn]) = (version, page.leads);
                }
            }
        }
    }
}

/// The write numbers of a transaction's pages.
fn numbers(s: Spare, g: Geometry) -> RangeInclusive<u8> {
    if g.two_planes() && s.id != 0 {
        1..=LONGEST as u8
    } else {
        0..=0
    }
}

/// What refusal 4 asks of a whole page by itself.
fn good(s: Spare, g: Geometry) -> bool {
    (s.kind == 0 || s.is_drop())
        && numbers(s, g).contains(&s.reserved)
        && usize::from(s.lpn) < g.logical
        && (s.count == 0) == (s.version == 0)
        && s.id <= LAST
        && s.version <= LAST
        && (s.id != 0 || s.count == 1)
}

/// No list but a bit for each whole page: every question is answered by going through the spare areas again.
pub struct Rescan<'a> {
    pages: &'a [Page],
    g: Geometry,
    zones: Zones<'a>,
    whole: [u64; 128],
}

impl Rescan<'_> {
    /// The whole pages in scan order.
    fn whole(&self) -> impl Iterator<Item = (usize, Spare)> + '_ {
        self.zones.scan(self.pages, self.g).filter(|(ppn, _)| self.whole[ppn / 64] >> (ppn % 64) & 1 == 1).map(|(ppn, p)| (ppn, Spare::of(p)))
    }

    /// The pages of the transaction that a page is of.
    fn of(&self, ppn: usize, s: Spare) -> impl Iterator<Item = (usize, Spare)> + '_ {
        self.whole().filter(move |(n, t)| if s.id == 0 { *n == ppn } else { t.id == s.id })
    }
}

impl<'a> Scan<'a> for Rescan<'a> {
    fn scan(pages: &'a [Page], g: Geometry, zones: Zones<'a>) -> Result<Rescan<'a>, Refusal> {
        let mut found = Rescan { pages, g, zones, whole: [0; 128] };
        for (ppn, _) in zones.scan(pages, g).filter(|(_, p)| is_whole(p)) {
            found.whole[ppn / 64] |= 1 << (ppn % 64);
        }
        for (i, (_, s)) in found.whole().enumerate() {
            ensure(good(s, g), Refusal::BadPage)?;
            let again = |t: Spare| t.version == s.version || s.id != 0 && t.id == s.id && t.count != 0;
            ensure(s.count == 0 || !found.whole().take(i).any(|(_, t)| again(t)), Refusal::BadPage)?;
            let same = |t: Spare| t.id == s.id && t.reserved == s.reserved;
            ensure(s.reserved == 0 || !found.whole().take(i).any(|(_, t)| same(t)), Refusal::BadPage)?;
        }
        Ok(found)
    }

    fn highest(&self) -> u32 {
        self.whole().map(|(_, s)| s.version).max().unwrap_or(0)
    }

    fn redo(&self, floor: u32, map: &mut [u16]) {
        let mut last = floor;
        while let Some((ppn, mark)) = self.whole().filter(|(_, s)| s.version > last).min_by_key(|(_, s)| s.version) {
            if self.of(ppn, mark).count() == usize::from(mark.count) {
                for number in numbers(mark, self.g) {
                    let numbered = self.of(ppn, mark).filter(|(_, s)| s.reserved == number);
                    numbered.for_each(|(n, s)| map[usize::from(s.lpn)] = leads(s.is_drop(), n as u16));
                }
            }
            last = mark.version;
        }
    }
}
