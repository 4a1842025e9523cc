//! Random sequences of document 01 (docs/PAPERS.md) with cuts at random bits, on one plane and on two, held to its book: after every cut a
//! recovery gives each logical page as the book has it, and every torn page is torn by at least 1. On two planes a cut also leaves any part
//! of the pages that run. Every call also goes to the plain layer, which must answer and leave the same.
#![allow(dead_code)]
mod book;
mod cuts;

use crate::common::{due_bits, kind, lost_state, Done, Layer, Met, Rng, Running};
use bokuhira::{Call, Class, Geometry, State, Store, DATA, PAGE, UNMAPPED};
pub use book::Book;
use cuts::how_many;
pub use cuts::Cuts;
use std::sync::atomic::{AtomicUsize, Ordering};

/// Which calls are drawn, and how often one is cut.
struct Mood {
    weights: [usize; 10],
    cut_once_in: usize,
    /// Writes go to one change, until it is full.
    one_change: bool,
}

//                 begin write drop lone commit abort read checkpoint reclaim recover
const MIXED: [usize; 10] = [10, 20, 10, 15, 10, 3, 6, 6, 8, 1];
const SHORT: [usize; 10] = [18, 30, 10, 4, 30, 2, 3, 8, 8, 0];
const DROPS: [usize; 10] = [18, 6, 34, 8, 30, 2, 3, 8, 8, 0];
const RUNS: [usize; 10] = [14, 50, 12, 1, 24, 4, 2, 8, 8, 0];
const LONE: [usize; 10] = [2, 2, 1, 60, 2, 1, 4, 9, 9, 0];
const LONG: [usize; 10] = [3, 90, 30, 2, 1, 0, 2, 14, 6, 0];
const MANY: [usize; 10] = [60, 20, 10, 2, 4, 4, 2, 4, 4, 0];
const TIDY: [usize; 10] = [1, 2, 1, 8, 1, 1, 2, 10, 50, 0];
const NO_CHECKPOINT: [usize; 10] = [2, 4, 2, 30, 2, 1, 2, 1, 50, 0];
const MOODS: [[usize; 10]; 10] = [MIXED, SHORT, SHORT, DROPS, RUNS, LONE, LONG, MANY, TIDY, NO_CHECKPOINT];

/// A sequence under way on both layers.
#[derive(Clone)]
pub struct Run {
    pub g: Geometry,
    pub rng: Rng,
    pub proved: Store,
    plain: Store,
    pub book: Book,
    pub met: Met,
    pub cuts: Cuts,
    /// A number that no identifier had yet.
    fresh: u32,
    /// The command of several strides under way.
    under_way: Option<Call>,
    pub running: Vec<Running>,
}

impl Run {
    /// Both layers on one array of any bytes, with any map, hold and state.
    pub fn new(g: Geometry, seed: u64) -> Run {
        let mut rng = Rng::new(seed);
        let mut proved = Store::blank(g);
        rng.fill(&mut proved.array);
        proved.state = lost_state(&mut rng);
        let plain = proved.clone();
        let (met, cuts) = (Met::new(), Cuts::default());
        Run { g, rng, proved, plain, book: Book::new(g), met, cuts, fresh: 1, under_way: None, running: Vec::new() }
    }

    /// A call on both layers: the same answer, the same buffers, one operation at most, and nothing at all where it is refused. Gives the
    /// answer and the store before.
    fn both(&mut self, call: &Call) -> (u8, Store) {
        let before = self.proved.clone();
        let answer = Layer::Proved.call(&mut self.proved, call);
        assert_eq!(Layer::Plain.call(&mut self.plain, call), answer, "the plain layer answers otherwise to {call:?}");
        assert!(self.proved == self.plain, "the layers differ after {call:?}, {answer}");
        if answer != 0 && answer != 255 {
            assert!(self.proved == before, "{call:?} was refused with {answer} and changed something");
        } else {
            self.one_operation(&before.array, &self.proved.array);
        }
        (answer, before)
    }

    /// Nothing changed, or ones of one page became zeros, or one block was erased.
    fn one_operation(&self, before: &[u8], after: &[u8]) {
        let changed: Vec<usize> = (0..before.len() / PAGE).filter(|&k| before[k * PAGE..][..PAGE] != after[k * PAGE..][..PAGE]).collect();
        let programmed = changed.len() == 1 && (0..PAGE).all(|i| !before[changed[0] * PAGE + i] & after[changed[0] * PAGE + i] == 0);
        let pages = self.g.pages as usize;
        let erased = !changed.is_empty() && {
            let b = changed[0] / pages;
            changed.iter().all(|k| k / pages == b) && after[b * pages * PAGE..][..pages * PAGE].iter().all(|x| *x == 255)
        };
        assert!(changed.is_empty() || programmed || erased, "more than one operation: pages {changed:?}");
    }

    /// One call of the sequence.
    pub fn call(&mut self, call: &Call) -> u8 {
        let (answer, before) = self.both(call);
        self.running = Done { call, answer, before: &before, after: &self.proved.array }.after(&self.running);
        let plane = |r: &Running| r.page / self.g.pages as usize % 2;
        let one_a_plane = self.running.iter().enumerate().all(|(i, r)| self.running[..i].iter().all(|s| plane(r) != plane(s)));
        assert!(one_a_plane && (self.g.planes == 2 || self.running.is_empty()), "these run: {:?}", self.running);
        self.met.note(call, answer);
        self.book.answered(call, answer);
        if self.under_way.as_ref() == Some(call) {
            assert!(answer == 0 || answer == 255, "a later stride of {call:?} answers {answer}");
        }
        match call {
            Call::Recover(_) => {
                assert_eq!(answer, 0, "a recover in a sequence");
                self.under_way = None;
            }
            Call::Checkpoint | Call::Reclaim | Call::Format(_) => match answer {
                255 => self.under_way = Some(call.clone()),
                0 => self.under_way = None,
                _ => (),
            },
            Call::Read(lpn) => self.reads(*lpn),
            _ => (),
        }
        answer
    }

    /// One logical page reads as the book has it, on both layers.
    fn reads(&self, lpn: u16) {
        let due = match self.book.pages.get(lpn as usize) {
            None => Err(5),
            Some(None) => Err(14),
            Some(Some(data)) => Ok(&data[..]),
        };
        assert_eq!(Layer::Proved.read(&self.proved, lpn), due, "logical page {lpn}");
        assert_eq!(Layer::Plain.read(&self.plain, lpn), due, "logical page {lpn}, plain layer");
    }

    /// Every logical page reads so; and the state has zeros past its counts.
    pub fn all_read(&self) {
        assert_eq!(State::decode(&self.proved.state).expect("a state").encode(), self.proved.state);
        (0..self.g.logical).for_each(|lpn| self.reads(lpn));
    }

    /// Format from its first stride to its last, with a cut now and then, after which it starts anew.
    fn format(&mut self) {
        self.book = Book::new(self.g);
        let call = Call::Format(self.g);
        let mut first = true;
        loop {
            if self.rng.once_in(20) {
                self.cut_in(Some(&call));
                // a format of this geometry is not under way: the next call is a first stride
                self.proved.state[277..280].fill(0);
                self.plain.state[277..280].fill(0);
                first = true;
            }
            let answer = self.call(&call);
            assert!(answer == 0 || answer == 255);
            assert!(!first || self.proved.map.iter().all(|e| *e == UNMAPPED));
            first = false;
            self.reads(0);
            if answer == 0 {
                return self.all_read();
            }
        }
    }

    /// The array as a cut in a call leaves it, and the book with it; map, hold and state are lost.
    pub fn cut_in(&mut self, call: Option<&Call>) {
        let mut running = std::mem::take(&mut self.running);
        let (mut programs, mut all_turned) = (false, false);
        if let Some(call) = call {
            let (answer, before) = self.both(call);
            let due = due_bits(&before.array, &self.proved.array);
            let during = Done { call, answer, before: &before, after: &self.proved.array }.during(&running);
            // byte 524 of a page is its Kind, and 3 that of a drop
            let drops = due.first().is_some_and(|(at, _)| self.proved.array[at / PAGE * PAGE + 524] == 3);
            self.cuts.in_drops += drops as usize;
            (self.proved, self.plain) = (before.clone(), before);
            programs = due.first().is_some_and(|(at, mask)| self.proved.array[*at] & mask != 0);
            let early = !running.is_empty() && self.rng.once_in(4);
            let turned = match early {
                true => vec![false; due.len()],
                // all of them, though a page that runs may be short of some
                _ if !during.is_empty() && self.rng.once_in(3) => vec![true; due.len()],
                _ => self.turned(due.len()),
            };
            all_turned = turned.iter().all(|t| *t);
            if due.is_empty() {
                self.cuts.without_operation += 1;
            } else if early {
                self.cuts.early[usize::from(during.len() < running.len())] += 1;
            } else {
                let cuts = if programs { &mut self.cuts.in_programs } else { &mut self.cuts.in_erases };
                cuts[kind(call)][how_many(&turned)] += 1;
            }
            for ((at, mask), _) in due.iter().zip(turned).filter(|(_, turned)| *turned) {
                self.proved.array[*at] ^= mask;
            }
            if !early {
                running = during;
            }
        } else {
            self.cuts.between += 1;
        }
        let mark = matches!(call, Some(Call::Commit(_))) && programs && all_turned;
        for r in running {
            let turned = self.turned(r.due_bits(&self.proved.array).len());
            r.cut(&mut self.proved.array, &turned);
            self.cuts.in_running[how_many(&turned)] += 1;
            let own = call == Some(&Call::Commit(r.id));
            let short = turned.contains(&false);
            all_turned &= !(own && short);
            self.cuts.short_of_own += usize::from(mark && own && short);
            self.cuts.short_of_others += usize::from(mark && !own && short);
        }
        self.book.cut(call, programs, all_turned);
        self.under_way = None;
        self.lose();
    }

    fn operates(&self, call: &Call) -> bool {
        let mut after = self.proved.clone();
        // whatever it answers: a refused call leaves the array as it was
        let _ = Layer::Proved.call(&mut after, call);
        after.array != self.proved.array
    }

    /// Which of n due bits a cut lets be turned.
    fn turned(&mut self, n: usize) -> Vec<bool> {
        if n == 0 {
            return Vec::new();
        }
        let at = self.rng.below(n);
        match self.rng.below(8) {
            0 => vec![false; n],
            1 | 2 => vec![true; n],
            3 => (0..n).map(|i| i != at).collect(),
            4 => (0..n).map(|i| i == at).collect(),
            5 => (0..n).map(|i| i < at).collect(),
            6 => (0..n).map(|i| i > at).collect(),
            _ => {
                let density = 1 + self.rng.below(255) as u64;
                (0..n).map(|_| self.rng.next() % 256 < density).collect()
            }
        }
    }

    /// Map, hold and state are anything now.
    fn lose(&mut self) {
        self.proved.state = lost_state(&mut self.rng);
        self.rng.fill(&mut self.proved.hold);
        self.proved.map.iter_mut().for_each(|e| *e = self.rng.next() as u16);
        self.plain = self.proved.clone();
    }

    /// After a cut: recovers, some of them cut too, and refused formats, until one recover is done. Then the book holds, and recovering
    /// again changes nothing.
    pub fn recover(&mut self) {
        let call = Call::Recover(self.g);
        while self.rng.once_in(4) {
            match self.rng.below(3) {
                0 => self.cut_in(None),
                1 => self.cut_in(Some(&call)),
                _ => self.refused_format(),
            }
        }
        self.torn_pages();
        self.call(&call);
        self.all_read();
        self.torn_in_scan_order();
        let before = self.proved.clone();
        self.call(&call);
        assert!(self.proved == before, "recovering again changes something");
        // and so it is with any other map, hold and state
        let hold = self.proved.hold.clone();
        self.lose();
        self.proved.hold = hold.clone();
        self.plain.hold = hold;
        self.call(&call);
        assert!(self.proved == before, "recovering from another map and state gives something else");
    }

    /// Every torn page is torn by at least 1: nobody but the layer wrote to the array. Both layers class every page alike.
    fn torn_pages(&mut self) {
        for page in self.proved.array.chunks_exact(PAGE) {
            let class = Layer::Proved.class(page);
            assert_eq!(Layer::Plain.class(page), class, "the class of a page, plain layer");
            if let Some(Class::Torn(by)) = class {
                assert!(by >= 1, "a page of the layer is torn by {by}");
                self.cuts.torn += 1;
            }
        }
    }

    /// The torn pages in scan order, as many on both layers.
    fn torn_in_scan_order(&mut self) {
        let torn = Layer::Proved.torn(&self.proved).expect("a state");
        assert_eq!(Layer::Plain.torn(&self.plain), Some(torn), "torn pages in scan order, plain layer");
        self.cuts.torn_in_scan_order += torn;
    }

    fn refused_format(&mut self) {
        let Geometry { blocks, logical, .. } = self.g;
        let wrong = [
            Geometry { blocks: 7, logical: 1, ..self.g },
            Geometry { logical: logical + 1, ..self.g },
            Geometry { blocks: blocks + 1, ..self.g },
            Geometry { pages: 65, ..self.g },
            Geometry { planes: 0, ..self.g },
            Geometry { planes: 3, ..self.g },
        ];
        let call = Call::Format(*self.rng.pick(&wrong));
        assert_eq!(self.call(&call), 1);
    }

    fn draw(&mut self, mood: &Mood) -> Call {
        if let Some(call) = self.under_way.clone().filter(|_| !self.rng.once_in(8)) {
            return call;
        }
        let mut at = self.rng.below(mood.weights.iter().sum());
        let drawn = mood
            .weights
            .iter()
            .position(|w| {
                if at < *w {
                    true
                } else {
                    at -= w;
                    false
                }
            })
            .unwrap();
        match drawn {
            1 | 2 | 4 | 5 if self.book.open.is_empty() && !self.rng.once_in(6) => Call::Begin(self.new_id()),
            0 => Call::Begin(self.new_id()),
            1 => Call::Write { id: self.open_id(mood), lpn: self.lpn(), data: self.data() },
            2 => Call::Drop { id: self.open_id(mood), lpn: self.lpn() },
            3 => Call::Lone { lpn: self.lpn(), data: self.data() },
            4 => Call::Commit(self.open_id(mood)),
            5 => Call::Abort(self.open_id(mood)),
            6 => Call::Read(self.lpn()),
            7 => Call::Checkpoint,
            8 => Call::Reclaim,
            _ => Call::Recover(self.g),
        }
    }

    /// Most often one that was never used; else one used before, or none at all.
    fn new_id(&mut self) -> u32 {
        match self.rng.below(20) {
            0 => *self.rng.pick(&[0, u32::MAX, u32::MAX - 1]),
            1..=3 => self.fresh.saturating_sub(self.rng.below(12) as u32).max(1),
            _ => {
                self.fresh += 1;
                self.fresh
            }
        }
    }

    fn open_id(&mut self, mood: &Mood) -> u32 {
        let open: Vec<u32> = self.book.open.keys().copied().collect();
        if open.is_empty() || self.rng.once_in(40) {
            self.new_id()
        } else if mood.one_change {
            open[0]
        } else {
            *self.rng.pick(&open)
        }
    }

    /// A few logical pages are written often.
    fn lpn(&mut self) -> u16 {
        let logical = self.g.logical as usize;
        let lpn = match self.rng.below(30) {
            0 => logical + self.rng.below(3),
            1..=15 => self.rng.below(logical.div_ceil(4)),
            _ => self.rng.below(logical),
        };
        lpn as u16
    }

    /// Data with few zeros, few ones, or any.
    fn data(&mut self) -> Vec<u8> {
        match self.rng.below(40) {
            0 => vec![0; *self.rng.pick(&[0, 511, 513])],
            1 => vec![255; DATA],
            2 => vec![0; DATA],
            _ => self.rng.bytes(DATA),
        }
    }

    /// A sequence: format, then calls and cuts.
    pub fn sequence(&mut self, calls: usize) {
        self.sequence_with(calls, |_| ());
    }

    /// The same, with a look at it before each call and cut.
    pub fn sequence_with(&mut self, calls: usize, mut look: impl FnMut(&Run)) {
        self.format();
        let until = self.met.calls() + calls;
        while self.met.calls() < until {
            let weights = *self.rng.pick(&MOODS);
            let mood = Mood { weights, cut_once_in: *self.rng.pick(&[8, 20, 100, 400]), one_change: weights == LONG };
            for _ in 0..40 + self.rng.below(200) {
                look(self);
                self.step(&mood);
            }
            self.all_read();
        }
    }

    /// One call, or a cut and the recovery.
    fn step(&mut self, mood: &Mood) {
        let mut call = self.draw(mood);
        // while pages run more often, and in a commit more often still
        let once_in = match call {
            Call::Commit(_) if !self.running.is_empty() => 3,
            _ if !self.running.is_empty() => mood.cut_once_in.min(20),
            _ => mood.cut_once_in,
        };
        if self.rng.once_in(once_in) {
            // most often in a call that programs or erases
            for _ in 0..6 {
                if !self.operates(&call) {
                    call = self.draw(mood);
                }
            }
            let between = self.rng.once_in(6);
            self.cut_in(if between { None } else { Some(&call) });
            self.recover();
        } else if self.rng.once_in(150) {
            self.refused_format();
        } else {
            self.call(&call);
        }
    }
}

/// What each job finds, two at a time.
pub fn on_two_threads<J: Sync, T: Send>(jobs: &[J], find: impl Fn(&J) -> T + Sync) -> Vec<T> {
    let next = AtomicUsize::new(0);
    let work = || std::iter::from_fn(|| jobs.get(next.fetch_add(1, Ordering::Relaxed))).map(&find).collect();
    std::thread::scope(|s| {
        let threads: Vec<_> = (0..2).map(|_| s.spawn(work)).collect();
        threads.into_iter().flat_map(|t| -> Vec<T> { t.join().expect("a sequence") }).collect()
    })
}
