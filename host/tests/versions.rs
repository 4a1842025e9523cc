//! Recover of arrays that no sequence makes: writes and drops of one page by many changes, the marks' versions in any order, identifiers that
//! differ in one byte or leave one remainder, versions repeated, second marks, counts right and wrong, any floor; on two planes write numbers
//! in any order. The two layers, the program that rescans and document 01's words (docs/PAPERS.md), taken one after the other, must agree.
mod common;

use bokuhira::{Call, Geometry, State, Store, Zones, CHANGE_PAGES, DATA, HOLD, PAGE, UNMAPPED};
use common::{checkpointed, compare, lost_state, put, say, scan_order, spare, whole_page, Rng};
use std::collections::{BTreeMap, BTreeSet};

/// The highest identifier and the highest version.
const LAST: u32 = 0xFFFF_FFFE;

// What a case may be: its identifiers, its versions, its write numbers, its floor, and how it was spoilt.
const IDS: [&str; 9] = [
    "identifiers from a counter",
    "any identifiers",
    "identifiers 1 modulo 2047",
    "identifiers with the same low half",
    "the highest identifiers",
    "identifiers that differ in byte 0",
    "identifiers that differ in byte 1",
    "identifiers that differ in byte 2",
    "identifiers that differ in byte 3",
];
const ORDERS: [&str; 5] =
    ["versions rising", "versions falling", "versions shuffled", "versions rising but for one", "versions of two blocks in turn"];
const NUMBERS: [&str; 4] = ["write numbers rising", "write numbers falling", "write numbers shuffled", "write numbers with gaps"];
const FLOORS: [&str; 5] = ["floor 0", "floor 0xFFFFFFFE", "floor 0xFFFFFFFF", "floor at a version", "floor just below a version"];
const SPOILT: [&str; 7] = [
    "a mark has an earlier one's version",
    "a mark has a later one's version",
    "two marks of a change",
    "two equal marks",
    BAD,
    BAD_NUMBER,
    "a page has another's write number",
];
const BAD: &str = "a page bad by itself";
const BAD_NUMBER: &str = "a write number bad by itself";
// What recover meets where it is done.
const MET: [&str; 9] = [WRONG, OLD, LATER, HIGHER, EARLIER, TORN, DROPPED, LONE_DROP, WRITTEN_AGAIN];
const WRONG: &str = "a wrong count";
const OLD: &str = "a version not above the floor";
const LATER: &str = "a later page of its change holds";
const HIGHER: &str = "an earlier page of its change holds, its number is higher";
const EARLIER: &str = "an earlier page of a later change holds";
const TORN: &str = "a torn page like a mark";
const DROPPED: &str = "a mapped page is dropped";
const LONE_DROP: &str = "a drop that is a transaction by itself";
const WRITTEN_AGAIN: &str = "a dropped page is written again";
// Why a mark or a page is bad, by the place of the other.
const REPEATED: [&str; 3] = ["a version repeated side by side", "a version repeated further on", "a version repeated in the other zone"];
const AGAIN: [&str; 3] = ["a write number repeated side by side", "a write number repeated further on", "a write number repeated in the other zone"];
const SECOND: [&str; 3] = ["a second mark side by side", "a second mark further on", "a second mark in the other zone"];

/// A page on the array.
#[derive(Clone, Copy)]
struct Page {
    ppn: usize,
    lpn: u16,
    count: u16,
    id: u32,
    version: u32,
    /// 0, or 3 for a drop, or a kind that is bad.
    kind: u8,
    /// Its write number on two planes, else 0.
    number: u8,
    torn: bool,
}

/// An array: its checkpoint, and the pages of its listed blocks in scan order.
struct Case {
    g: Geometry,
    zones: Zones,
    map: Vec<u16>,
    floor: u32,
    pages: Vec<Page>,
    /// What is special about it.
    kinds: BTreeSet<&'static str>,
}

impl Case {
    /// Why refusal 4 is due, if it is.
    fn bad(&self, whole: &[Page]) -> Option<&'static str> {
        let available = |p: &Page| self.zones.available.contains(&((p.ppn / self.g.pages as usize) as u8));
        let two_planes = self.g.planes == 2;
        for (i, p) in whole.iter().enumerate() {
            let numbers = if two_planes && p.id != 0 { 1..=CHANGE_PAGES as u8 } else { 0..=0 };
            if !numbers.contains(&p.number) {
                return Some(BAD_NUMBER);
            }
            if ![0, 3].contains(&p.kind)
                || p.lpn >= self.g.logical
                || (p.count == 0) != (p.version == 0)
                || p.id > LAST
                || p.version > LAST
                || p.id == 0 && p.count != 1
            {
                return Some(BAD);
            }
            let place = |j: usize| if available(p) != available(&whole[j]) { 2 } else { (i > j + 1) as usize };
            let clash = |o: &Page| o.count != 0 && (o.version == p.version || o.id == p.id && p.id != 0);
            if let Some(j) = whole[..i].iter().position(|o| p.count != 0 && clash(o)) {
                return Some(if whole[j].version == p.version { REPEATED } else { SECOND }[place(j)]);
            }
            if let Some(j) = whole[..i].iter().position(|o| two_planes && p.id != 0 && o.id == p.id && o.number == p.number) {
                return Some(AGAIN[place(j)]);
            }
        }
        None
    }

    /// The map with the committed transactions above the floor applied by rising version, the pages of one by their write numbers, on one
    /// plane in scan order.
    fn redone(&mut self, whole: &[Page]) -> Vec<u16> {
        let of = |m: usize| (0..whole.len()).filter(move |&i| if whole[m].id == 0 { i == m } else { whole[i].id == whole[m].id });
        let mut marks: Vec<usize> = (0..whole.len()).filter(|&m| whole[m].count != 0).collect();
        marks.sort_by_key(|&m| whole[m].version);
        let mut map = self.map.clone();
        let mut entered: Vec<Option<usize>> = vec![None; map.len()];
        for m in marks {
            let right = of(m).count() == whole[m].count as usize;
            if !right || whole[m].version <= self.floor {
                self.kinds.insert(if right { OLD } else { WRONG });
                continue;
            }
            let mut pages: Vec<usize> = of(m).collect();
            pages.sort_by_key(|&i| whole[i].number);
            for i in pages {
                let lpn = whole[i].lpn as usize;
                let before = map[lpn];
                map[lpn] = if whole[i].kind == 3 { UNMAPPED } else { whole[i].ppn as u16 };
                match (before, map[lpn]) {
                    (UNMAPPED, UNMAPPED) => false,
                    (_, UNMAPPED) => self.kinds.insert(if whole[i].id == 0 { LONE_DROP } else { DROPPED }),
                    (UNMAPPED, _) if entered[lpn].is_some() => self.kinds.insert(WRITTEN_AGAIN),
                    _ => false,
                };
                match entered[lpn].replace(i) {
                    Some(before) if whole[before].id == whole[i].id && whole[i].id != 0 => self.kinds.insert(if before > i { HIGHER } else { LATER }),
                    Some(before) if before > i => self.kinds.insert(EARLIER),
                    _ => false,
                };
            }
        }
        map
    }
}

/// Cases drawn from one seed, and how many of each kind were given each answer.
struct Maker {
    rng: Rng,
    met: BTreeMap<(u8, &'static str), usize>,
}

impl Maker {
    fn new(seed: u64) -> Maker {
        Maker { rng: Rng::new(seed), met: BTreeMap::new() }
    }

    fn below(&mut self, n: usize) -> usize {
        self.rng.below(n)
    }

    /// Some blocks listed, now and then all, in any order.
    fn zones(&mut self, g: Geometry) -> Zones {
        let mut blocks: Vec<u8> = (2..g.blocks as u8).collect();
        self.rng.shuffle(&mut blocks);
        let listed = if self.rng.once_in(3) { blocks.len() } else { 1 + self.below(blocks.len()) };
        let mut free = blocks.split_off(listed);
        free.truncate(self.below(free.len() + 1));
        free.sort_unstable();
        let unavailable = blocks.split_off(self.below(listed.min(3) + 1));
        Zones { available: blocks, unavailable, free, pointer: 2 }
    }

    /// An empty array with any map.
    fn empty(&mut self, g: Geometry) -> Case {
        let mut map: Vec<u16> = (2 * g.pages..g.blocks * g.pages).collect();
        self.rng.shuffle(&mut map);
        map.truncate(g.logical as usize);
        map.iter_mut().filter(|_| self.rng.once_in(2)).for_each(|e| *e = UNMAPPED);
        Case { g, zones: self.zones(g), map, floor: 0, pages: Vec::new(), kinds: BTreeSet::new() }
    }

    /// Any case.
    fn case(&mut self, g: Geometry) -> Case {
        let mut case = self.empty(g);
        self.lay(&mut case);
        self.mark(&mut case.pages);
        self.version(&mut case);
        self.number(&mut case);
        self.spoil(&mut case);
        self.floor(&mut case);
        case
    }

    /// Identifiers of one form, each once.
    fn ids(&mut self, form: usize, n: u32) -> Vec<u32> {
        let any = self.rng.next() as u32;
        let mut ids: Vec<u32> = match form {
            0 => (1..=n).collect(),
            1 => (0..n).map(|_| self.rng.next() as u32).collect(),
            2 => (0..n).map(|i| 1 + 2047 * i).collect(),
            3 => (0..n).map(|i| any ^ i << 16).collect(),
            4 => (0..n).map(|i| LAST - i).collect(),
            _ => (0..n.min(256)).map(|i| any ^ i << (8 * (form - 5))).collect(),
        };
        ids.retain(|id| (1..=LAST).contains(id));
        if self.rng.once_in(2) {
            self.rng.shuffle(&mut ids);
        }
        ids
    }

    /// Lone pages, and changes of some pages each, several of them open at a time. Some pages stay erased, and some are torn.
    fn lay(&mut self, case: &mut Case) {
        let order = scan_order(case.g, &case.zones);
        let form = self.below(IDS.len());
        case.kinds.insert(IDS[form]);
        let mut ids = self.ids(form, order.len() as u32).into_iter().cycle();
        let mut open = vec![(0, 0); 1 + self.below(8)];
        let longest = *self.rng.pick(&if case.g.planes == 2 { [1, 3, 8, 41, 41] } else { [1, 3, 8, 64, order.len()] });
        // so many of 20 pages
        let [lone, erased, torn, drops] = [[0, 1, 10, 20], [0, 0, 1, 10], [0, 0, 1, 5], [0, 2, 5, 10]].map(|rates| *self.rng.pick(&rates));
        for ppn in order {
            if self.below(20) < erased {
                continue;
            }
            let mut id = 0;
            if self.below(20) >= lone {
                let change = self.below(open.len());
                if open[change].1 == 0 {
                    open[change] = (ids.next().expect("an identifier"), 1 + self.below(longest));
                }
                open[change].1 -= 1;
                id = open[change].0;
            }
            let lpn = self.below(case.g.logical as usize) as u16;
            let kind = if self.below(20) < drops { 3 } else { 0 };
            case.pages.push(Page { ppn, lpn, count: 0, id, version: 0, kind, number: 0, torn: self.below(20) < torn });
        }
    }

    /// Lone pages are marks, and of most changes one page, mostly its last; mostly with the right count. Torn pages look like marks.
    fn mark(&mut self, pages: &mut [Page]) {
        let mut changes: BTreeMap<u32, Vec<usize>> = BTreeMap::new();
        for (i, p) in pages.iter_mut().enumerate() {
            if p.id == 0 || p.torn {
                p.count = 1;
            } else {
                changes.entry(p.id).or_default().push(i);
            }
        }
        for of in changes.values() {
            let mark = if self.rng.once_in(3) { *self.rng.pick(of) } else { of[of.len() - 1] };
            pages[mark].count = match self.below(10) {
                0 => 0,
                1 => 1 + self.below(of.len() + 3) as u16,
                2 => self.rng.next() as u16,
                _ => of.len() as u16,
            };
        }
    }

    /// The marks' versions: each once, in some order. They differ in one byte or in all. Torn pages repeat them.
    fn version(&mut self, case: &mut Case) {
        let marks: Vec<usize> = (0..case.pages.len()).filter(|&i| case.pages[i].count != 0 && !case.pages[i].torn).collect();
        let n = marks.len() as u32;
        let step = (*self.rng.pick(&[1, 1, 3, 1 << 8, 1 << 16, 1 << 24, LAST])).min(LAST / (n + 1));
        let first = if self.rng.once_in(4) { LAST - n * step } else { 1 + self.below(step as usize) as u32 };
        let mut versions: Vec<u32> = (0..n).map(|i| first + i * step).collect();
        let order = self.below(ORDERS.len());
        match order {
            1 => versions.reverse(),
            2 => self.rng.shuffle(&mut versions),
            3 if n > 0 => {
                let moved = versions.remove(self.below(n as usize));
                versions.insert(self.below(n as usize), moved);
            }
            4 => versions = versions.chunks(16).flat_map(|pair| pair.iter().step_by(2).chain(pair.iter().skip(1).step_by(2))).copied().collect(),
            _ => (),
        }
        case.kinds.insert(ORDERS[order]);
        for (&mark, version) in marks.iter().zip(&versions) {
            case.pages[mark].version = *version;
        }
        for p in case.pages.iter_mut().filter(|p| p.torn && n > 0) {
            p.version = *self.rng.pick(&versions);
            case.kinds.insert(TORN);
        }
    }

    /// The write numbers of each change on two planes: each once, up to its pages or with gaps up to 41, in some order. Torn pages have any.
    fn number(&mut self, case: &mut Case) {
        if case.g.planes == 1 {
            return;
        }
        let mut changes: BTreeMap<u32, Vec<usize>> = BTreeMap::new();
        for (i, p) in case.pages.iter_mut().enumerate().filter(|(_, p)| p.id != 0) {
            match p.torn {
                true => p.number = self.rng.next() as u8,
                false => changes.entry(p.id).or_default().push(i),
            }
        }
        let order = self.below(NUMBERS.len());
        case.kinds.insert(NUMBERS[order]);
        for of in changes.values() {
            let mut numbers: Vec<usize> = (1..=CHANGE_PAGES).collect();
            if order == 3 {
                self.rng.shuffle(&mut numbers);
            }
            numbers.truncate(of.len());
            match order {
                1 => numbers.reverse(),
                2 => self.rng.shuffle(&mut numbers),
                _ => (),
            }
            // of one with more than 41 pages, some repeat
            for (i, number) in of.iter().zip(numbers.iter().cycle()) {
                case.pages[*i].number = *number as u8;
            }
        }
    }

    /// A mark takes over the version or the identifier of another, a page its write number, or a page is bad by itself; every second time
    /// nothing happens.
    fn spoil(&mut self, case: &mut Case) {
        let how = self.below(2 * SPOILT.len());
        let pages = &mut case.pages;
        let fits = |p: &Page| match how {
            0 | 1 => p.count != 0,
            2 | 3 => p.count != 0 && p.id != 0,
            6 => p.id != 0,
            _ => true,
        };
        let among: Vec<usize> = (0..pages.len()).filter(|&i| !pages[i].torn && fits(&pages[i])).collect();
        if how >= SPOILT.len() || among.len() < 2 {
            return;
        }
        let later = 1 + self.below(among.len() - 1);
        let earlier = match self.below(4) {
            0 | 1 => later - 1,
            2 => 0,
            _ => self.below(later),
        };
        let (later, earlier) = (among[later], among[earlier]);
        match how {
            0 => pages[later].version = pages[earlier].version,
            1 => pages[earlier].version = pages[later].version,
            2 => pages[later].id = pages[earlier].id,
            3 => (pages[later].id, pages[later].version) = (pages[earlier].id, pages[earlier].version),
            5 => {
                let p = &mut pages[later];
                let right = case.g.planes == 2 && p.id != 0;
                p.number = *self.rng.pick(if right { &[0, 42, 43, 128, 255] } else { &[1, 2, 41, 42, 255] });
            }
            // in its own change, or by moving to it
            6 => (pages[later].id, pages[later].number, pages[later].count, pages[later].version) = (pages[earlier].id, pages[earlier].number, 0, 0),
            _ => {
                let p = &mut pages[later];
                match self.below(7) {
                    0 => p.lpn = case.g.logical,
                    6 => p.kind = *self.rng.pick(&[1, 2, 4, 7, 255]),
                    1 => p.id = LAST + 1,
                    2 => p.version = LAST + 1,
                    3 => (p.count, p.version) = (1, 0),
                    4 => (p.count, p.version) = (0, 1),
                    _ => (p.id, p.count) = (0, 2),
                }
            }
        }
        case.kinds.insert(SPOILT[how]);
    }

    /// The checkpoint's last version: an end of its range, or a page's version, or the one below.
    fn floor(&mut self, case: &mut Case) {
        let versions: Vec<u32> = case.pages.iter().map(|p| p.version).filter(|v| *v != 0).collect();
        let some = if versions.is_empty() { 1 } else { *self.rng.pick(&versions) };
        let how = *self.rng.pick(&[0, 0, 0, 1, 2, 3, 3, 4, 4]);
        case.floor = [0, LAST, LAST + 1, some, some - 1][how];
        case.kinds.insert(FLOORS[how]);
    }

    /// The array of a case, with any map, hold and state. Blocks that are not listed begin with a page of one that is: they are not scanned.
    fn world(&mut self, case: &Case) -> Store {
        let g = case.g;
        let mut array = checkpointed(g, &case.map, case.floor, &case.zones);
        for p in &case.pages {
            let mut page = whole_page(&[self.rng.next() as u8; DATA], &spare(p.lpn, p.count, p.id, p.version, p.kind, p.number));
            if p.torn {
                page[self.below(DATA)] ^= 1 << self.below(8);
            }
            put(&mut array, p.ppn, &page);
        }
        let listed = [&case.zones.available[..], &case.zones.unavailable].concat();
        for b in (2..g.blocks).filter(|b| !listed.contains(&(*b as u8)) && !case.pages.is_empty()) {
            let from = self.rng.pick(&case.pages).ppn * PAGE;
            array.copy_within(from..from + PAGE, b as usize * g.pages as usize * PAGE);
        }
        let map = (0..g.logical).map(|_| self.rng.next() as u16).collect();
        Store { array, map, hold: self.rng.bytes(HOLD), state: lost_state(&mut self.rng) }
    }

    /// Recovers a case in every way, and notes of what kinds it is; the answer.
    fn check(&mut self, mut case: Case) -> u8 {
        let g = case.g;
        let whole: Vec<Page> = case.pages.iter().copied().filter(|p| !p.torn).collect();
        let bad = case.bad(&whole);
        let due = if bad.is_some() { 4 } else { 0 };
        let mut world = self.world(&case);
        let mut again = world.clone();
        assert_eq!(compare(&mut world, &Call::Recover(g)), due, "{g:?}, floor {}, {bad:?}: {:?}", case.floor, case.kinds);
        if bad.is_none() {
            assert_eq!(world.map, case.redone(&whole), "{g:?}, floor {}: {:?}", case.floor, case.kinds);
            let highest = whole.iter().map(|p| p.version).fold(case.floor, u32::max);
            assert_eq!(State::decode(&world.state).map(|s| (s.version, s.zones)), Some((highest, case.zones)));
        }
        // it takes long on many pages
        if whole.len() < 1000 {
            let Store { array, map, hold, state } = &mut again;
            assert_eq!(plain::rescan(array, map, hold, state, g.blocks, g.pages, g.logical, g.planes), due, "{bad:?}: {:?}", case.kinds);
            assert!(again == world, "the program that rescans left another store: {:?}", case.kinds);
        }
        case.kinds.extend(bad);
        for kind in case.kinds {
            *self.met.entry((due, kind)).or_default() += 1;
        }
        due
    }
}

#[test]
fn versions_and_identifiers_in_any_order() {
    let work = |seed: u64| {
        let mut maker = Maker::new(seed);
        for _ in 0..16_000 {
            let g = Geometry::new(8 + maker.below(5) as u16, 8 + maker.below(5) as u16, 1 + maker.below(16) as u16);
            let g = g.with_planes(1 + maker.below(2) as u16);
            let case = maker.case(g);
            maker.check(case);
        }
        maker.met
    };
    let mut met = BTreeMap::new();
    std::thread::scope(|s| {
        let threads: Vec<_> = (0..2).map(|seed| s.spawn(move || work(seed))).collect();
        threads.into_iter().flat_map(|t| t.join().expect("a case")).for_each(|(kind, n)| *met.entry(kind).or_insert(0) += n);
    });
    // each case has one order of versions
    let [done, bad] = [0, 4].map(|answer| ORDERS.iter().map(|order| met[&(answer, *order)]).sum::<usize>());
    say(&format!("versions: {done} arrays are recovered the same in every way, {bad} are refused for a bad page"));
    let done = [&IDS[..], &ORDERS, &NUMBERS, &FLOORS, &MET].concat().into_iter().map(|kind| (0, kind));
    let bad = [&SPOILT[..], &REPEATED, &SECOND, &AGAIN].concat().into_iter().map(|kind| (4, kind));
    for kind in done.chain(bad) {
        let n = met.get(&kind).copied().unwrap_or(0);
        assert!(n > 50, "{n} times {kind:?}");
    }
}

/// The most pages in a block, the most blocks, and both. Of the largest array some cases with every page whole: one change of all of them; each
/// a change by itself, the versions falling and the identifiers of one remainder, without and with a fault in the last; and on two planes
/// changes of 40 and 41 pages, the numbers falling, without and with a number repeated by the last.
#[test]
fn arrays_at_the_limits_of_the_geometry() {
    let mut maker = Maker::new(2);
    let mut answers = [0; 5];
    let large = Geometry::new(128, 64, 1024);
    for (g, cases) in [(Geometry::new(8, 64, 128), 60), (Geometry::new(128, 8, 976), 20), (large, 6)] {
        for planes in (0..cases).map(|i| 1 + i % 2) {
            let case = maker.case(g.with_planes(planes));
            answers[maker.check(case) as usize] += 1;
        }
    }
    assert!(answers[0] > 20 && answers[4] > 20, "{answers:?}");

    const N: u32 = 126 * 64;
    // count, identifier, version and write number of page i, in scan order
    type Numbers = fn(u32) -> (u16, u32, u32, u32);
    let full: [(u16, u8, Numbers); 9] = [
        (1, 0, |i| if i == 4000 { (N as u16, 5, 9, 0) } else { (0, 5, 0, 0) }),
        (1, 0, |i| (1, 0, N - i, 0)),
        (1, 0, |i| (1, 1 + 2047 * i, N - i, 0)),
        (1, 4, |i| (1, 1 + 2047 * i, if i == N - 1 { N } else { N - i }, 0)),
        (1, 4, |i| (1, 1 + 2047 * (i % (N - 1)), N - i, 0)),
        (2, 0, |i| (1, 0, N - i, 0)),
        (2, 0, |i| (1, 1 + 2047 * i, N - i, 41)),
        (2, 0, |i| if i < 197 { (if i < 184 { 41 } else { 40 }, 1 + i, N - i, 41) } else { (0, 1 + i % 197, 0, 41 - i / 197) }),
        (2, 4, |i| if i < N - 1 { (0, 1 + i % 197, 0, 1 + i / 197) } else { (0, 1, 0, 1) }),
    ];
    for (planes, answer, page) in full {
        let mut case = maker.empty(large.with_planes(planes));
        case.zones = Zones { available: vec![9, 2, 5], unavailable: (2..128).filter(|b| ![9, 2, 5].contains(b)).collect(), free: vec![], pointer: 2 };
        for (i, ppn) in (0..N).zip(scan_order(large, &case.zones)) {
            let (count, id, version, number) = page(i);
            let (lpn, kind, number) = (maker.below(1024) as u16, 3 * (i % 2) as u8, number as u8);
            case.pages.push(Page { ppn, lpn, count, id, version, kind, number, torn: false });
        }
        assert_eq!(maker.check(case), answer);
    }
}
