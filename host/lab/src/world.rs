//! A flash with the layer's buffers, the book beside it, the pages that run, and the cut that fell last. Every call goes through the proved
//! library.
use crate::{
    book::Book,
    cut::{due_bits, turn, Cut, How, Left, Ran},
    frame,
    pages::{Op, Pages},
    running::{Done, Running},
    view::{Source, View},
    why::{self, Why},
    words::{geometry_words, numbers, refusal_words},
};
use bokuhira::{Answer, Call, Geometry, Kind, Refusal, State, Store, DATA, HOLD, PAGE, STATE, UNMAPPED};
use std::ops::Range;

#[derive(Clone)]
pub struct World {
    pub geometry: Geometry,
    pub store: Store,
    pub pages: Pages,
    /// No state: power was cut, or the array is new to the layer.
    pub lost: bool,
    /// Something was written by hand, past the layer.
    pub spoilt: bool,
    /// None where no format of this session made the array.
    pub book: Option<Book>,
    /// By page number.
    pub running: Vec<Running>,
    pub cut: Option<Cut>,
}

impl World {
    /// A flash that the layer has not seen: all zero bytes.
    pub fn blank(g: Geometry) -> World {
        World::import(g, vec![0; g.array_len()])
    }

    /// A flash with these bytes, which must be as many as the geometry says.
    pub fn import(g: Geometry, array: Vec<u8>) -> World {
        let pages = Pages::of(&array);
        World { geometry: g, store: Store { array, ..Store::blank(g) }, pages, lost: true, spoilt: false, book: None, running: Vec::new(), cut: None }
    }

    pub fn state(&self) -> Option<State> {
        if self.lost {
            None
        } else {
            State::decode(&self.store.state)
        }
    }

    pub fn view(&self) -> View {
        let view = |source: Source| View::of(self.geometry, &self.store.array, &self.pages.list, source);
        match self.state() {
            Some(state) => view(Source::State(&state, &self.store.map)),
            None => match self.recovered() {
                Ok(found) => view(Source::Recovery(&found.map)),
                Err(why) => view(Source::Refused(why)),
            },
        }
    }

    /// What a recovery makes of the array, on a copy, or why it is refused.
    pub fn recovered(&self) -> Result<Store, Why> {
        let mut copy = Store { array: self.store.array.clone(), ..Store::blank(self.geometry) };
        match copy.recover(self.geometry) {
            Answer::Refused(refusal) => Err(self.why_recover(self.geometry, refusal)),
            _ => Ok(copy),
        }
    }

    /// Why a recovery of that geometry was refused with that number, which stands, whatever the diagnosis is.
    fn why_recover(&self, g: Geometry, refusal: Refusal) -> Why {
        let bare = Why { refusal, words: String::new(), pages: vec![] };
        why::recover(g, &self.store, &self.pages.list).filter(|why| why.refusal == refusal).unwrap_or(bare)
    }

    /// What can be told of a call that this world refused with that number, beside the number's word.
    pub fn reason(&self, call: &Call, refusal: Refusal) -> Option<String> {
        let words = match call {
            Call::Recover(g) => self.why_recover(*g, refusal).words,
            Call::Format(_) => frame::why(&self.store, call)?,
            _ if refusal.0 != 1 => return None,
            _ if self.lost => "there is no state: recover first".into(),
            _ => frame::why(&self.store, call)?,
        };
        let w = self.geometry;
        match call {
            Call::Format(g) | Call::Recover(g) if refusal.0 == 1 && *g != w => {
                Some(format!("{words}; this flash has {}; 'import' or 'blank' takes another", geometry_words(w)))
            }
            _ => Some(words).filter(|words| !words.is_empty()),
        }
    }

    /// The pages of a block, none where there is no such block.
    pub fn block(&self, b: usize) -> Option<Range<usize>> {
        let p = self.geometry.pages as usize;
        (b < self.geometry.blocks as usize).then(|| b * p..(b + 1) * p)
    }

    pub fn page_bytes(&self, k: usize) -> &[u8] {
        &self.store.array[k * PAGE..(k + 1) * PAGE]
    }

    pub fn data(&self, k: usize) -> &[u8] {
        &self.page_bytes(k)[..DATA]
    }

    pub fn runs(&self, k: usize) -> bool {
        self.running.iter().any(|r| r.page == k)
    }

    pub fn mapped_count(&self) -> usize {
        self.store.map.iter().filter(|e| **e != UNMAPPED).count()
    }

    /// How many pages in scan order are torn; none where no scan order is known.
    pub fn torn_count(&self) -> Option<usize> {
        let view = self.view();
        view.zones_known().then(|| view.scan().filter(|k| self.pages.list[*k].is_torn()).count())
    }

    /// Carries out one call.
    pub fn call(&mut self, call: &Call) -> (Answer, Op) {
        let before = self.store.clone();
        let answer = self.store.call(call);
        self.running = Done { call, answer: answer.number(), before: &before, after: &self.store.array }.after(&self.running);
        self.running.sort_by_key(|r| r.page);
        match (call, answer) {
            (_, Answer::Refused(_)) => (),
            (Call::Format(g), _) => {
                (self.geometry, self.lost, self.spoilt, self.cut) = (*g, false, false, None);
                self.book = Some(Book::fresh(g.logical));
            }
            (Call::Recover(g), _) => (self.geometry, self.lost) = (*g, false),
            _ => (),
        }
        if let Some(book) = &mut self.book {
            book.answered(call, answer);
        }
        (answer, self.pages.follow(&self.store.array, self.geometry))
    }

    /// The power fails in this call, or between two. The state is lost with it. An error where a page is named that does not run.
    pub fn cut(&mut self, call: Option<&Call>, left: &Left, what: &str) -> Result<(), String> {
        let mut after = self.store.clone();
        let answer = call.map(|c| after.call(c));
        let running = match (call, answer) {
            (Some(call), Some(answer)) if !left.early => {
                Done { call, answer: answer.number(), before: &self.store, after: &after.array }.during(&self.running)
            }
            _ => self.running.clone(),
        };
        if let Some((k, _)) = left.running.iter().find(|(k, _)| running.iter().all(|r| r.page != *k)) {
            let pages: Vec<usize> = running.iter().map(|r| r.page).collect();
            return Err(format!("page {k} does not run then; pages that do: {}", numbers(&pages)));
        }
        let nothing = match (call, answer) {
            (Some(call), Some(Answer::Refused(r))) => {
                let reason = self.reason(call, r).map_or(String::new(), |reason| format!(": {reason}"));
                format!("the call is refused: {}{reason}; power lost between two calls", refusal_words(r))
            }
            (Some(_), _) if left.early => "power lost before its operation begins".into(),
            (Some(_), _) => "power lost; no bit was due".into(),
            (None, _) => "power lost between two calls".into(),
        };
        let due = if left.early { Vec::new() } else { due_bits(&self.store.array, &after.array) };
        let op = self.operation(&due);
        let turned: Vec<bool> = (0..due.len()).map(|i| left.how.turns(i, due.len())).collect();
        due.iter().zip(&turned).filter(|(_, t)| **t).for_each(|(bit, _)| turn(&mut self.store.array, *bit));
        let mut complete = matches!(op, Op::Program(_)) && turned.iter().all(|t| *t);
        let mut ran = Vec::new();
        for r in running {
            let how = left.running.iter().find(|(k, _)| *k == r.page).map_or(How::All, |(_, how)| *how);
            let due = r.due_bits(&self.store.array).len();
            let turned: Vec<bool> = (0..due).map(|i| how.turns(i, due)).collect();
            r.cut(&mut self.store.array, &turned);
            // of the change's own pages every due bit must be turned
            complete &= call != Some(&Call::Commit(r.id)) || turned.iter().all(|t| *t);
            ran.push(Ran { page: r.page, due, turned: turned.iter().filter(|t| **t).count() });
        }
        match (call, answer) {
            (Some(Call::Format(_)), Some(Answer::Done | Answer::More)) => self.book = None,
            _ => self.book.iter_mut().for_each(|b| b.cut(call, complete)),
        }
        self.pages.follow(&self.store.array, self.geometry);
        self.cut = Some(Cut { what: what.into(), op, due, turned, nothing, ran });
        self.dark(0, 0);
        Ok(())
    }

    /// What due bits of one operation say about it: a program turns ones, an erase zeros.
    pub fn operation(&self, due: &[u32]) -> Op {
        match due.first() {
            None => Op::Nothing,
            Some(bit) if self.store.array[*bit as usize / 8] >> (bit % 8) & 1 == 1 => Op::Program(*bit as usize / 8 / PAGE),
            Some(bit) => Op::Erase(*bit as usize / 8 / PAGE / self.geometry.pages as usize),
        }
    }

    /// State, map and hold are lost: these numbers stand in them. A format that was under way is not finished, so it has no book.
    pub fn dark(&mut self, map: u16, hold: u8) {
        if self.state().is_some_and(|s| s.work.kind == Kind::Format) {
            self.book = None;
        }
        self.store.map = vec![map; self.geometry.logical as usize];
        self.store.hold = vec![hold; HOLD];
        self.store.state = vec![0; STATE];
        self.lost = true;
        self.running.clear();
        if let Some(book) = &mut self.book {
            book.open.clear();
        }
    }

    /// Bytes of the array written by hand.
    pub fn spoil(&mut self, at: usize, bytes: &[u8]) {
        self.store.array[at..at + bytes.len()].copy_from_slice(bytes);
        self.pages.follow(&self.store.array, self.geometry);
        self.spoilt = true;
    }
}

#[cfg(test)]
mod tests {
    use super::*;
    use crate::{
        cut::Amount,
        lot::Lot,
        view::{Fate, Hold},
    };
    use bokuhira::UNMAPPED;
    use std::collections::{BTreeMap, HashMap};

    /// What the view says of the pages, carried out by hand on the newest checkpoint's map, is the map that the proved recovery makes.
    fn redo(world: &World) -> Vec<u16> {
        let view = world.view();
        let c = &view.checkpoints[view.newest.unwrap()];
        let entry = |lpn: usize| {
            let at = (c.first + lpn / 256) * PAGE + 2 * (lpn % 256);
            u16::from_le_bytes([world.store.array[at], world.store.array[at + 1]])
        };
        let mut map: Vec<u16> = (0..world.geometry.logical as usize).map(entry).collect();
        let pages = &world.pages.list;
        let committed: Vec<usize> = view.scan().filter(|k| view.fates[*k] == Fate::Committed).collect();
        let mut marks: Vec<usize> = committed.iter().copied().filter(|k| pages[*k].cnt != 0).collect();
        marks.sort_by_key(|k| pages[*k].ver);
        for mark in marks {
            let of = |k: &usize| *k == mark || (pages[mark].id != 0 && pages[*k].id == pages[mark].id);
            let mut list: Vec<usize> = committed.iter().copied().filter(of).collect();
            // on one plane every number is 0
            list.sort_by_key(|k| pages[*k].reserved);
            for k in list {
                map[pages[k].lpn as usize] = if pages[k].is_drop() { UNMAPPED } else { k as u16 };
            }
        }
        map
    }

    /// A call, every second time of a change that is open.
    fn call_of(lot: &mut Lot, world: &World) -> Call {
        let mut call = lot.call(world.geometry.logical);
        let open = world.book.as_ref().map_or(&[][..], |book| &book.open);
        if let Call::Write { id, .. } | Call::Drop { id, .. } | Call::Commit(id) | Call::Abort(id) = &mut call {
            if !open.is_empty() && lot.below(2) == 0 {
                *id = open[lot.below(open.len() as u64) as usize].id;
            }
        }
        call
    }

    /// A cut with any of these due bits turned, of the call's operation or none of it, and of each page that runs.
    fn any_cut(lot: &mut Lot, world: &World) -> Left {
        let hows = [How::None, How::All, How::All, How::First(Amount::Percent(50)), How::ButLast, How::Every(3, 1)];
        let mut how = || hows[lot.below(6) as usize];
        let (first, running) = (how(), world.running.iter().map(|r| (r.page, how())).collect());
        match lot.below(5) {
            0 => Left { early: true, how: How::None, running },
            _ => Left { early: false, how: first, running },
        }
    }

    /// The same with the pages alone that run beside the call's operation.
    fn cut_in(world: &mut World, call: &Call, mut left: Left) -> Left {
        let mut after = world.store.clone();
        let answer = after.call(call).number();
        let during = Done { call, answer, before: &world.store, after: &after.array }.during(&world.running);
        left.running.retain(|(k, _)| left.early || during.iter().any(|r| r.page == *k));
        world.cut(Some(call), &left, "").unwrap();
        left
    }

    #[test]
    fn the_view_and_the_book_agree_with_the_proved_recovery() {
        let (mut cuts, mut ran) = (0, 0);
        for seed in 0..120 {
            let mut lot = Lot(seed);
            let g = Geometry::new(8 + lot.below(4) as u16, 8 + lot.below(3) as u16, 10 + lot.below(7) as u16).with_planes(1 + seed as u16 % 2);
            let mut world = World::blank(g);
            while world.call(&Call::Format(g)).0 == Answer::More {}
            let mut under_way = Call::Read(0);
            for _ in 0..400 {
                let call = if matches!(under_way, Call::Read(_)) { call_of(&mut lot, &world) } else { under_way.clone() };
                if lot.below(if world.running.is_empty() { 25 } else { 4 }) > 0 {
                    let (answer, _) = world.call(&call);
                    under_way = if answer == Answer::More { call } else { Call::Read(0) };
                    continue;
                }
                let left = any_cut(&mut lot, &world);
                ran += cut_in(&mut world, &call, left).running.len();
                let seen = redo(&world);
                let holds = world.view().holds;
                assert_eq!(world.call(&Call::Recover(g)).0, Answer::Done);
                assert_eq!(world.store.map, seen);
                assert_eq!(holds, world.view().holds);
                let book = world.book.clone().unwrap();
                for (lpn, said) in book.pages.iter().enumerate() {
                    assert_eq!(said.as_deref(), world.store.read(lpn as u16).ok());
                    assert_eq!(said.is_some(), world.store.map[lpn] != UNMAPPED);
                }
                under_way = Call::Read(0);
                cuts += 1;
            }
        }
        assert!(cuts > 1_000 && ran > 100, "{cuts} cuts, {ran} pages ran");
    }

    /// What truly became of the changes: of each page its change, none for a lone one; and of each change whether it was committed.
    struct Truth {
        of_page: Vec<Option<usize>>,
        open: HashMap<u32, usize>,
        committed: Vec<bool>,
    }

    impl Truth {
        fn follows(&mut self, call: &Call, done: bool, op: Op, pages: usize) {
            let change = match call {
                Call::Write { id, .. } | Call::Drop { id, .. } | Call::Commit(id) => self.open.get(id).copied(),
                _ => None,
            };
            match op {
                Op::Program(k) => self.of_page[k] = change,
                Op::Erase(b) => self.of_page[b * pages..(b + 1) * pages].fill(None),
                Op::Nothing => (),
            }
            match call {
                Call::Begin(id) if done => {
                    self.open.insert(*id, self.committed.len());
                    self.committed.push(false);
                }
                Call::Commit(id) | Call::Abort(id) if done => {
                    self.open.remove(id);
                    change.into_iter().for_each(|c| self.committed[c] = true);
                }
                _ => (),
            }
        }
    }

    /// Whatever the layer does, cuts and all: no page is called committed or dead that was not committed, or abandoned that was.
    #[test]
    fn the_word_for_each_page_is_true() {
        let mut met: BTreeMap<(String, bool), usize> = BTreeMap::new();
        for seed in 0..300 {
            let mut lot = Lot(seed);
            let g = Geometry::new(8 + lot.below(3) as u16, 8, 16).with_planes(1 + seed as u16 % 2);
            let mut world = World::blank(g);
            while world.call(&Call::Format(g)).0 == Answer::More {}
            let pages = g.pages as usize;
            let mut truth = Truth { of_page: vec![None; g.blocks as usize * pages], open: HashMap::new(), committed: vec![] };
            let mut under_way = None;
            for _ in 0..600 {
                let call = under_way.take().unwrap_or_else(|| call_of(&mut lot, &world));
                if lot.below(if world.running.is_empty() { 60 } else { 6 }) > 0 {
                    let (answer, op) = world.call(&call);
                    truth.follows(&call, answer == Answer::Done, op, pages);
                    under_way = (answer == Answer::More).then_some(call);
                } else {
                    let left = any_cut(&mut lot, &world);
                    let of = |k: usize| truth.of_page[k];
                    let committed = match &call {
                        Call::Commit(id) => truth.open.get(id).copied(),
                        _ => None,
                    };
                    let left = cut_in(&mut world, &call, left);
                    let own = left.running.iter().all(|(k, how)| *how == How::All || of(*k) != committed);
                    let op = world.cut.as_ref().unwrap().op;
                    truth.follows(&call, left.how == How::All && matches!(op, Op::Program(_)) && own, op, pages);
                    truth.open.clear();
                }
                let view = world.view();
                for k in view.scan().filter(|k| world.pages.list[*k].is_whole() && world.pages.list[*k].id != 0) {
                    let change = truth.of_page[k].expect("a change's page");
                    let (committed, open) = (truth.committed[change], truth.open.values().any(|c| *c == change));
                    let right = match view.fates[k] {
                        Fate::Active => open,
                        Fate::Committed | Fate::Dead => committed,
                        Fate::Abandoned => !committed && !open,
                        Fate::Uncommitted => !open && view.holds[k] == Hold::No,
                        _ => false,
                    };
                    assert!(right, "seed {seed}, page {k}: {:?}, committed {committed}, open {open}", view.fates[k]);
                    let list: Vec<usize> = view.scan().filter(|j| truth.of_page[*j] == Some(change) && world.pages.list[*j].is_whole()).collect();
                    assert!(list.iter().all(|j| view.fates[*j] == view.fates[k]));
                    let in_part = !list.iter().any(|j| world.pages.list[*j].cnt as usize == list.len());
                    *met.entry((format!("{:?}{}", view.fates[k], if in_part { " in part" } else { "" }), committed)).or_default() += 1;
                }
                if world.lost {
                    assert_eq!(world.call(&Call::Recover(g)).0, Answer::Done);
                }
            }
        }
        let met: Vec<(&str, bool)> = met.iter().filter(|(_, n)| **n > 50).map(|((fate, committed), _)| (fate.as_str(), *committed)).collect();
        let all = [
            ("Abandoned in part", false),
            ("Active in part", false),
            ("Committed", true),
            ("Dead", true),
            ("Dead in part", true),
            ("Uncommitted in part", false),
            ("Uncommitted in part", true),
        ];
        assert_eq!(met, all);
    }

    #[test]
    fn a_format_that_was_cut_has_no_book() {
        let g = Geometry::new(8, 8, 16);
        let mut world = World::blank(g);
        assert_eq!(world.call(&Call::Format(g)).0, Answer::More);
        world.cut(None, &How::None.into(), "").unwrap();
        assert!(world.book.is_none());
    }
}
