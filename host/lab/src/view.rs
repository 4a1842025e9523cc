//! The array as a recovery sees it: the zone of each block, the scan order, the checkpoints in the front, and what became of each
//! page's transaction.
use crate::{
    checkpoints::{complete, newest, Checkpoint},
    pages::Page,
    why::{bad_pages, Why},
};
use bokuhira::{Class, Geometry, Kind, Plane, State};
use std::collections::{HashMap, HashSet};

#[derive(Clone, Copy, PartialEq, Eq, Debug)]
pub enum Zone {
    Front,
    Available,
    Unavailable,
    Checkpointed,
    Free,
    /// Neither a state nor a checkpoint says, a format is under way, or the geometry is not possible.
    Unknown,
}

impl Zone {
    pub const ALL: [Zone; 6] = [Zone::Front, Zone::Available, Zone::Unavailable, Zone::Checkpointed, Zone::Free, Zone::Unknown];

    pub fn word(self) -> &'static str {
        match self {
            Zone::Front => "front",
            Zone::Available => "available",
            Zone::Unavailable => "unavailable",
            Zone::Checkpointed => "checkpointed",
            Zone::Free => "free",
            Zone::Unknown => "zone unknown",
        }
    }
}

/// What became of a page's transaction; `help pages` has the words.
#[derive(Clone, Copy, PartialEq, Eq, Debug)]
pub enum Fate {
    /// Erased or torn: the page belongs to nobody.
    Nobody,
    Active,
    Committed,
    Dead,
    Abandoned,
    /// Dead or abandoned: pages of its change may have left the scan, or recovery refuses, and nobody knows which.
    Uncommitted,
    /// In a block that no scan reads.
    Outside,
    /// A page that recovery refuses with 4.
    Bad,
    /// A page of the newest complete checkpoint, of an older one, or of none.
    Newest,
    Older,
    Part,
    /// The page of the newest one for which recovery refuses with 3.
    Refused,
    /// A whole page in a block whose zone nobody knows.
    Unknown,
}

/// Whether the map points to a page, so that a read gives it.
#[derive(Clone, Copy, PartialEq, Eq, Debug)]
pub enum Hold {
    /// No map is known.
    Unknown,
    No,
    /// It does, and the page is a whole write of that logical page.
    Yes,
    /// It does, for this logical page, and yet the page is no whole write of it.
    Yet(u16),
}

impl Fate {
    pub fn word(self) -> &'static str {
        match self {
            Fate::Nobody => "",
            Fate::Active => "active",
            Fate::Committed => "committed",
            Fate::Dead => "dead",
            Fate::Abandoned => "abandoned",
            Fate::Uncommitted => "not committed in the scan",
            Fate::Outside => "outside the scan",
            Fate::Bad => "bad page",
            Fate::Newest => "newest checkpoint",
            Fate::Older => "older checkpoint",
            Fate::Part => "no complete checkpoint",
            Fate::Refused => "newest checkpoint, which recover refuses",
            Fate::Unknown => "not known",
        }
    }
}

/// What zones and map are known from.
pub enum Source<'a> {
    State(&'a State, &'a [u16]),
    /// There is no state; a recovery makes this map.
    Recovery(&'a [u16]),
    /// There is no state, and a recovery is refused: no map is known.
    Refused(Why),
}

pub struct View {
    pub geometry: Geometry,
    pub zones: Vec<Zone>,
    /// The available and unavailable blocks, in zone order.
    pub available: Vec<u8>,
    pub unavailable: Vec<u8>,
    /// None where the zones are not known.
    pub pointer: Option<u8>,
    pub fates: Vec<Fate>,
    pub holds: Vec<Hold>,
    /// What refusal 4 sees on each bad page.
    pub clauses: HashMap<usize, String>,
    pub checkpoints: Vec<Checkpoint>,
    /// Which of them recovery takes.
    pub newest: Option<usize>,
    /// The page that the next program of data takes.
    pub next: Option<usize>,
    /// Why a recovery is refused, where one is needed and is not done.
    pub refused: Option<Why>,
}

impl View {
    /// Over the pages of `array`. The zones are the state's; without one, those of the newest complete checkpoint, unless a recovery
    /// refuses that.
    pub fn of(g: Geometry, array: &[u8], pages: &[Page], source: Source) -> View {
        let blocks = g.blocks as usize;
        // of a geometry that is not possible nothing is said: not even where the front is
        let possible = !matches!(&source, Source::Refused(why) if why.refusal.0 == 1);
        let checkpoints = if possible { complete(g, array, pages) } else { vec![] };
        let newest = newest(&checkpoints);
        let taken = newest.map(|i| &checkpoints[i]);
        let of_checkpoint = |c: &Checkpoint| (c.available.clone(), c.unavailable.clone(), c.free.clone(), c.pointer);
        let of_state = |s: &State| (s.zones.available.clone(), s.zones.unavailable.clone(), s.zones.free.clone(), s.zones.pointer);
        let lists = match &source {
            Source::State(s, _) => (s.work.kind != Kind::Format).then(|| of_state(s)),
            Source::Recovery(_) => taken.map(of_checkpoint),
            Source::Refused(why) => taken.filter(|_| why.refusal.0 == 4).map(of_checkpoint),
        };
        let known = lists.is_some();
        let pointer = lists.as_ref().map(|l| l.3);
        let (available, unavailable, free, _) = lists.unwrap_or_default();
        let mut zones = vec![if known { Zone::Checkpointed } else { Zone::Unknown }; blocks];
        for (list, zone) in [(&available, Zone::Available), (&unavailable, Zone::Unavailable), (&free, Zone::Free)] {
            list.iter().filter(|b| (**b as usize) < blocks).for_each(|b| zones[*b as usize] = zone);
        }
        zones.iter_mut().take(if possible { 2 } else { 0 }).for_each(|z| *z = Zone::Front);
        let (state, holds, refused) = match source {
            Source::State(s, map) => (Some(s), held(pages, map), None),
            Source::Recovery(map) => (None, held(pages, map), None),
            Source::Refused(why) => (None, vec![Hold::Unknown; pages.len()], Some(why)),
        };
        let fates = vec![Fate::Nobody; pages.len()];
        let clauses = HashMap::new();
        let mut view = View { geometry: g, zones, available, unavailable, pointer, fates, holds, clauses, checkpoints, newest, next: None, refused };
        view.judge(pages, state);
        view.next = state.and_then(|s| view.next_page(pages, s));
        view
    }

    /// The first clean page of an available block, in zone order; on two planes one of the other plane than the last, if it has any.
    fn next_page(&self, pages: &[Page], state: &State) -> Option<usize> {
        let other = |b: &usize| match state.last {
            _ if self.geometry.planes != 2 => false,
            Plane::Neither => false,
            Plane::Even => b % 2 == 1,
            Plane::Odd => b.is_multiple_of(2),
        };
        let with_room = || self.available.iter().map(|b| *b as usize).filter(|b| self.clean(pages, *b) > 0);
        let taken = with_room().find(other).or_else(|| with_room().next());
        taken.map(|b| self.block(b).end - self.clean(pages, b))
    }

    /// Whether the zones are known, and with them the scan order.
    pub fn zones_known(&self) -> bool {
        self.pointer.is_some()
    }

    /// The zone of a page's block.
    pub fn zone(&self, k: usize) -> Zone {
        self.zones[k / self.geometry.pages as usize]
    }

    /// The pages of a block, as numbers.
    pub fn block(&self, b: usize) -> std::ops::Range<usize> {
        let p = self.geometry.pages as usize;
        b * p..(b + 1) * p
    }

    /// The clean pages of a block: those after its last page that is not erased.
    pub fn clean(&self, pages: &[Page], b: usize) -> usize {
        if b >= self.zones.len() {
            return 0;
        }
        pages[self.block(b)].iter().rev().take_while(|p| p.class == Class::Erased).count()
    }

    /// The page numbers in scan order: the unavailable blocks, then the available.
    pub fn scan(&self) -> impl Iterator<Item = usize> + '_ {
        let blocks = self.unavailable.iter().chain(&self.available).map(|b| *b as usize);
        blocks.filter(|b| (2..self.zones.len()).contains(b)).flat_map(|b| self.block(b))
    }

    /// The last version that the newest complete checkpoint carries.
    pub fn last_version(&self) -> u32 {
        self.newest.map_or(0, |i| self.checkpoints[i].last_version)
    }

    fn judge(&mut self, pages: &[Page], state: Option<&State>) {
        let elsewhere = if self.zones_known() { Fate::Outside } else { Fate::Unknown };
        for k in (0..pages.len()).filter(|k| pages[*k].is_whole()) {
            self.fates[k] = if self.zone(k) == Zone::Front { self.front(k) } else { elsewhere };
        }
        let active: HashSet<u32> = state.iter().flat_map(|s| &s.places).map(|p| p.id).filter(|id| *id != 0).collect();
        let scan: Vec<usize> = self.scan().filter(|k| pages[*k].is_whole()).collect();
        self.clauses = bad_pages(self.geometry, pages, scan.iter().copied()).into_iter().collect();
        let mut changes: HashMap<u32, Vec<usize>> = HashMap::new();
        scan.iter().filter(|k| pages[**k].id != 0).for_each(|k| changes.entry(pages[*k].id).or_default().push(*k));
        let changes: HashMap<u32, Fate> = changes.into_iter().map(|(id, list)| (id, self.change(pages, &list))).collect();
        for &k in &scan {
            let p = &pages[k];
            self.fates[k] = match changes.get(&p.id) {
                _ if self.clauses.contains_key(&k) => Fate::Bad,
                _ if active.contains(&p.id) => Fate::Active,
                Some(fate) => *fate,
                None => self.over(p.ver),
            };
        }
    }

    /// What became of a whole page in the front.
    fn front(&self, k: usize) -> Fate {
        let inside = |c: &Checkpoint| (c.first..=c.first + self.geometry.map_pages()).contains(&k);
        let at_fault = self.refused.as_ref().is_some_and(|why| why.refusal.0 == 3 && why.pages.contains(&k));
        match self.newest {
            Some(_) if at_fault => Fate::Refused,
            Some(n) if inside(&self.checkpoints[n]) => Fate::Newest,
            _ if self.checkpoints.iter().any(inside) => Fate::Older,
            _ => Fate::Part,
        }
    }

    /// What became of a transaction that is committed with this version.
    fn over(&self, ver: u32) -> Fate {
        if ver > self.last_version() {
            Fate::Committed
        } else {
            Fate::Dead
        }
    }

    /// What became of a change that is not active, by its whole pages in scan order. Where no mark's count agrees, pages have left the scan,
    /// or the change was never committed. A checkpoint lets no page leave while its change is open or has a page in a block that stays
    /// available; so a change with a mark above the checkpoint's last version, or with a page in an available block, is all there. On one plane a
    /// whole mark is one of a committed change; on two a page that ran beside it may have been lost.
    fn change(&self, pages: &[Page], list: &[usize]) -> Fate {
        let marks: Vec<&Page> = list.iter().map(|k| &pages[*k]).filter(|p| p.cnt != 0 && p.ver != 0).collect();
        let below = self.geometry.planes != 2 && marks.iter().any(|p| p.ver <= self.last_version());
        let settled = below || list.iter().any(|k| self.holds[*k] == Hold::Yes);
        let above = marks.iter().any(|p| p.ver > self.last_version());
        let all_there = above || list.iter().any(|k| self.zone(*k) == Zone::Available);
        match marks.iter().find(|p| p.cnt as usize == list.len()) {
            Some(mark) => self.over(mark.ver),
            None if settled => Fate::Dead,
            None if all_there && self.refused.is_none() => Fate::Abandoned,
            None => Fate::Uncommitted,
        }
    }
}

/// Of each page, whether the map points to it.
fn held(pages: &[Page], map: &[u16]) -> Vec<Hold> {
    let mut holds = vec![Hold::No; pages.len()];
    for (lpn, k) in map.iter().enumerate() {
        let (lpn, k) = (lpn as u16, *k as usize);
        match pages.get(k) {
            Some(p) if p.is_whole() && p.lpn == lpn && !p.is_drop() => holds[k] = Hold::Yes,
            Some(_) if holds[k] == Hold::No => holds[k] = Hold::Yet(lpn),
            _ => (),
        }
    }
    holds
}

#[cfg(test)]
mod tests {
    use super::*;
    use crate::{
        look::{look_of, state_line, KINDS},
        lot::Lot,
        show::show,
        world::World,
    };

    #[test]
    fn where_recover_refuses_nothing_is_said_of_what_holds() {
        let mut refused = [0; 5];
        for seed in 0..1500 {
            let mut lot = Lot(seed);
            let g = lot.geometry();
            let mut store = lot.lived(g);
            for _ in 0..2 {
                lot.spoil_array(g, &mut store);
            }
            let logical = if seed % 9 == 0 { 0 } else { g.logical };
            let world = World::import(Geometry { logical, ..g }, store.array);
            let view = world.view();
            let Some(why) = &view.refused else { continue };
            refused[why.refusal.0 as usize] += 1;
            assert!(view.holds.iter().all(|h| *h == Hold::Unknown));
            assert_eq!(view.zones_known(), why.refusal.0 == 4);
            let possible = why.refusal.0 != 1;
            assert!(view.zones[..2].iter().all(|z| (*z == Zone::Front) == possible));
            assert!(possible || view.checkpoints.is_empty());
            for (k, page) in world.pages.list.iter().enumerate() {
                let words = KINDS[look_of(page, view.fates[k], view.holds[k]) as usize].words;
                assert!(!words.contains("hold") || words.contains("not known whether it holds"), "{words}");
                assert!(possible || !page.is_whole() || view.fates[k] == Fate::Unknown);
            }
            let shown = show(&world, &crate::command::Show::All).unwrap();
            assert!(possible || shown.contains("checkpoints\n  not known: recover refuses: 1 bad frame\n") && !shown.contains("front"), "{shown}");
            assert!(!shown.contains(", holds") && !shown.contains("replaced") && shown.contains(&why.sentence()), "{shown}");
            assert_eq!(state_line(&world), why.sentence());
        }
        assert!(refused[1..].iter().all(|n| *n > 20), "{refused:?}");
    }
}
