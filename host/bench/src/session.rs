//! A long random session, each call timed: changes of writes and drops, lone writes and reads. Whenever the zone is short a checkpoint makes room,
//! and where few blocks are free a reclaim before it.
use crate::layer::{kind, Layer};
use crate::setup::Random;
use bokuhira::{Answer, Call, Geometry, State, Store};
use std::time::Instant;

/// The commands of a session, as `kind` numbers them from begin on.
pub const COMMANDS: [&str; 9] = ["begin", "write", "drop", "lone write", "commit", "abort", "read", "checkpoint, a stride", "reclaim, a stride"];

/// What a session took and did.
#[derive(Clone, Default)]
pub struct Tally {
    pub ns: [f64; COMMANDS.len()],
    pub calls: [u64; COMMANDS.len()],
    /// pages that callers wrote or dropped, and the operations on the flash
    pub pages: u64,
    pub programs: u64,
    pub erases: u64,
}

struct Session {
    layer: Layer,
    store: Store,
    tally: Tally,
    /// what a pair of clock readings takes
    clock: f64,
    /// a block is reclaimed where fewer than these are free
    few: usize,
}

/// As many blocks as a checkpoint takes at most.
pub const FEW: usize = 3;
/// A reclaim with every checkpoint.
pub const ALWAYS: usize = usize::MAX;

impl Session {
    fn call(&mut self, call: &Call) -> u8 {
        // a read is over in less than a clock's reading: several under one
        let times = if matches!(call, Call::Read(_)) { 16 } else { 1 };
        let before = Instant::now();
        let mut answer = 0;
        for _ in 0..times {
            answer = self.layer.call(std::hint::black_box(&mut self.store), std::hint::black_box(call));
        }
        let took = before.elapsed().as_nanos() as f64;
        let c = kind(call) - kind(&Call::Begin(0));
        self.tally.ns[c] += (took - self.clock).max(0.0);
        self.tally.calls[c] += times;
        answer
    }

    fn count(&mut self, programs: u64, erases: u64) {
        self.tally.programs += programs;
        self.tally.erases += erases;
    }

    /// Frees a block, where that gains anything.
    fn reclaim(&mut self) {
        loop {
            match self.call(&Call::Reclaim) {
                255 => self.count(1, 0),
                0 => return self.count(0, 1),
                _ => return,
            }
        }
    }

    /// Makes room: one reclaim where few blocks are free, and one checkpoint.
    fn make_room(&mut self) {
        if State::decode(&self.store.state).unwrap().zones.free.len() < self.few {
            self.reclaim();
        }
        let mut first = true;
        loop {
            let answer = self.call(&Call::Checkpoint);
            assert!(answer == 0 || answer == 255, "a checkpoint answered {answer}");
            // only the first stride can be an erase, and then no page is programmed yet
            let erased = first && State::decode(&self.store.state).unwrap().work.stride == 0 && answer == 255;
            self.count(!erased as u64, erased as u64);
            first = false;
            if answer == 0 {
                return;
            }
        }
    }

    /// Runs a call that may need a page; where the zone is short, room is made and it is tried once more.
    fn page(&mut self, call: &Call) -> u8 {
        match self.call(call) {
            12 => {
                self.make_room();
                self.call(call)
            }
            answer => answer,
        }
    }
}

/// Runs a session of so many turns from a formatted store, and gives what it took and the store it left.
pub fn run(layer: Layer, g: Geometry, turns: u32, seed: u64, clock: f64, few: usize) -> (Tally, Store) {
    let mut s = Session { layer, store: Store::formatted(g).expect("a geometry in range"), tally: Tally::default(), clock, few };
    let mut random = Random::new(seed);
    let datas: Vec<Vec<u8>> = (0..16).map(|_| random.page()).collect();
    let mut id = 0;
    for _ in 0..turns {
        let lpn = |r: &mut Random| r.below(g.logical as u64) as u16;
        let data = |r: &mut Random| datas[r.below(16) as usize].clone();
        match random.below(10) {
            0..=3 => {
                id += 1;
                assert_eq!(s.call(&Call::Begin(id)), 0);
                let mut written = 0;
                for _ in 0..1 + random.below(6) {
                    let (lpn, data) = (lpn(&mut random), data(&mut random));
                    // one page in eight is dropped
                    let call = if random.below(8) == 0 { Call::Drop { id, lpn } } else { Call::Write { id, lpn, data } };
                    if s.page(&call) == 0 {
                        written += 1;
                    }
                }
                let programmed = written.max(1) - 1;
                if random.below(10) == 0 {
                    assert_eq!(s.call(&Call::Abort(id)), 0);
                    s.count(programmed, 0);
                } else if s.page(&Call::Commit(id)) == 0 {
                    s.count(written, 0);
                } else {
                    assert_eq!(s.call(&Call::Abort(id)), 0);
                    s.count(programmed, 0);
                }
                s.tally.pages += written;
            }
            4..=6 => {
                let call = Call::Lone { lpn: lpn(&mut random), data: data(&mut random) };
                if s.page(&call) == 0 {
                    s.count(1, 0);
                    s.tally.pages += 1;
                }
            }
            _ => {
                let answer = s.call(&Call::Read(lpn(&mut random)));
                assert!(answer == 0 || answer == 14, "a read answered {answer}");
            }
        }
    }
    (s.tally, s.store)
}

/// How many of eight changes stay open for good: all, and the other pages are lone ones; or four, and the other pages are of changes of 1 to 8 pages.
pub const LONE: u32 = 8;
pub const CHANGES: u32 = 4;

/// A store in which so many blocks are listed. One or two pages of the changes that stay open stand in each block, so that every block that fills up
/// stays unavailable.
pub fn listed(g: Geometry, blocks: usize, stay: u32) -> Store {
    let mut s = Store::formatted(g).expect("a geometry in range");
    let mut random = Random::new(g.blocks as u64);
    let page = |r: &mut Random| (r.below(g.logical as u64) as u16, r.page());
    let write = |id, r: &mut Random| {
        let (lpn, data) = page(r);
        Call::Write { id, lpn, data }
    };
    // a change's first page is held: from then on each turn programs one
    for id in 1..=8 {
        assert_eq!(s.begin(id), Answer::Done);
        assert_eq!(s.call(&write(id, &mut random)), Answer::Done);
    }
    // identifier, and how many pages are to come
    let mut changes: Vec<(u32, u64)> = (stay + 1..=8).map(|id| (id, random.below(8))).collect();
    let mut ids = 9..;
    // on two planes a page in each of the two blocks that fill up together; few enough that no change gets too long
    let planes = g.planes as u32;
    let apart = 4 * planes * g.pages as u32 / stay;
    for turn in 0.. {
        let calls = if turn % apart < planes {
            vec![write(1 + (turn / apart * planes + turn % apart) % stay, &mut random)]
        } else if changes.is_empty() {
            let (lpn, data) = page(&mut random);
            vec![Call::Lone { lpn, data }]
        } else {
            let change = &mut changes[random.below(8 - stay as u64) as usize];
            if change.1 > 0 {
                change.1 -= 1;
                vec![write(change.0, &mut random)]
            } else {
                let done = change.0;
                *change = (ids.next().unwrap(), random.below(8));
                vec![Call::Commit(done), Call::Begin(change.0), write(change.0, &mut random)]
            }
        };
        if !calls.iter().all(|call| fits(&mut s, call, blocks)) {
            return s;
        }
    }
    unreachable!()
}

/// Carries a call out, after checkpoints where the zone is short; not once so many blocks are listed.
fn fits(s: &mut Store, call: &Call, blocks: usize) -> bool {
    loop {
        match s.call(call).number() {
            0 => return true,
            12 => {
                let z = State::decode(&s.state).unwrap().zones;
                if z.available.len() + z.unavailable.len() >= blocks || z.free.is_empty() {
                    return false;
                }
                while s.checkpoint().more().expect("a checkpoint") {}
            }
            other => panic!("{call:?} answered {other}"),
        }
    }
}
