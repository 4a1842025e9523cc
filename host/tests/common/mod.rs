//! What the tests share: the two layers, random numbers, arrays made up, pages that run, and cuts.
#![allow(dead_code)]
mod array;
mod layer;
mod running;

#[allow(unused_imports)]
pub use array::{checkpointed, put, scan_order, spare, whole_page, zone_data};
use bokuhira::{Call, Geometry, State, Store, DATA, PAGE};
#[allow(unused_imports)]
pub use layer::{kind, Layer, LAYERS};
#[allow(unused_imports)]
pub use running::{Done, Running};
use std::io::Write;

/// Says a line even where the test passes: the harness keeps back what `println!` writes.
pub fn say(line: &str) {
    writeln!(std::io::stderr(), "{line}").unwrap();
}

pub const NAMES: [&str; 11] = ["format", "recover", "begin", "write", "drop", "lone", "commit", "abort", "read", "checkpoint", "reclaim"];

/// How often each command gave each answer.
#[derive(Clone)]
pub struct Met([[usize; 256]; NAMES.len()]);

impl Met {
    pub fn new() -> Met {
        Met([[0; 256]; NAMES.len()])
    }

    pub fn note(&mut self, call: &Call, answer: u8) {
        self.0[kind(call)][answer as usize] += 1;
    }

    pub fn add(&mut self, other: &Met) {
        self.0.iter_mut().flatten().zip(other.0.iter().flatten()).for_each(|(a, b)| *a += b);
    }

    pub fn calls(&self) -> usize {
        self.0.iter().flatten().sum()
    }

    pub fn times(&self, command: &str, answer: u8) -> usize {
        let at = NAMES.iter().position(|n| *n == command).expect("a command");
        self.0[at][answer as usize]
    }

    /// How often any command gave an answer.
    pub fn in_all(&self, answer: u8) -> usize {
        self.0.iter().map(|a| a[answer as usize]).sum()
    }

    /// A line for each command.
    pub fn say(&self) {
        for (name, answers) in NAMES.iter().zip(&self.0) {
            let met: Vec<String> = (0..256).filter(|n| answers[*n] > 0).map(|n| format!("{n}:{}", answers[n])).collect();
            say(&format!("  {name}: {}", met.join(" ")));
        }
    }
}

/// A call on both layers, from the same world. The world becomes what it leaves.
pub fn compare(world: &mut Store, call: &Call) -> u8 {
    let before = world.clone();
    let mut plain = world.clone();
    let answer = Layer::Proved.call(world, call);
    assert_eq!(Layer::Plain.call(&mut plain, call), answer, "plain and proved answer otherwise to {call:?}: {}", told(&before));
    assert!(*world == plain, "after {call:?}, {answer}: {}\n  proved {}\n  plain  {}", told(&before), told(world), told(&plain));
    if answer != 0 && answer != 255 {
        assert!(*world == before, "{call:?} was refused with {answer} and changed something");
    }
    if let Call::Read(lpn) = call {
        let (part, other) = (Layer::Proved.read(world, *lpn), Layer::Plain.read(world, *lpn));
        assert_eq!(part.map(<[u8]>::as_ptr), other.map(<[u8]>::as_ptr), "the parts of a read");
        assert_eq!(part.map_or_else(|n| (n, 0), |p| (0, p.len())), (answer, if answer == 0 { DATA } else { 0 }));
    }
    answer
}

/// What a message tells of a world.
pub fn told(world: &Store) -> String {
    format!(
        "array of {}, map {:?}, hold of {}, state of {}: {:?}",
        world.array.len(),
        world.map,
        world.hold.len(),
        world.state.len(),
        State::decode(&world.state)
    )
}

/// Random numbers by splitmix64: a seed always gives the same ones.
#[derive(Clone)]
pub struct Rng(u64);

impl Rng {
    pub fn new(seed: u64) -> Rng {
        Rng(seed)
    }

    pub fn next(&mut self) -> u64 {
        self.0 = self.0.wrapping_add(0x9e3779b97f4a7c15);
        let x = (self.0 ^ self.0 >> 30).wrapping_mul(0xbf58476d1ce4e5b9);
        let x = (x ^ x >> 27).wrapping_mul(0x94d049bb133111eb);
        x ^ x >> 31
    }

    /// A number below n.
    pub fn below(&mut self, n: usize) -> usize {
        (self.next() % n as u64) as usize
    }

    /// True once in n times.
    pub fn once_in(&mut self, n: usize) -> bool {
        self.below(n) == 0
    }

    pub fn pick<'a, T>(&mut self, from: &'a [T]) -> &'a T {
        &from[self.below(from.len())]
    }

    pub fn shuffle<T>(&mut self, items: &mut [T]) {
        for i in (1..items.len()).rev() {
            items.swap(i, self.below(i + 1));
        }
    }

    pub fn bytes(&mut self, n: usize) -> Vec<u8> {
        let mut bytes = vec![0; n];
        self.fill(&mut bytes);
        bytes
    }

    pub fn fill(&mut self, bytes: &mut [u8]) {
        for chunk in bytes.chunks_mut(8) {
            let word = self.next().to_le_bytes();
            chunk.copy_from_slice(&word[..chunk.len()]);
        }
    }
}

/// The bits in which two arrays differ, lowest byte first, bit 0 first: a byte and a mask for each.
pub fn due_bits(before: &[u8], after: &[u8]) -> Vec<(usize, u8)> {
    let mut due = Vec::new();
    for (at, (x, y)) in before.chunks(PAGE).zip(after.chunks(PAGE)).enumerate().filter(|(_, (x, y))| x != y) {
        for i in (0..x.len()).filter(|&i| x[i] != y[i]) {
            due.extend((0..8).map(|bit| 1 << bit).filter(|mask| (x[i] ^ y[i]) & mask != 0).map(|mask| (at * PAGE + i, mask)));
        }
    }
    due
}

/// A state's bytes as a cut may leave them: any. Hardly any encode a state; every second time they are made to, so that the work under
/// way that they tell of is met too.
pub fn lost_state(rng: &mut Rng) -> Vec<u8> {
    let mut state = rng.bytes(bokuhira::STATE);
    if rng.once_in(2) {
        state[277] = rng.below(4) as u8;
        if state[277] % 3 == 0 {
            state[278..280].fill(0);
        }
        state[280] %= 3;
        drop_bytes(&mut state).for_each(|d| *d &= 1);
    }
    state
}

/// The bytes of a state that say of each page of each place whether it is a drop.
pub fn drop_bytes(state: &mut [u8]) -> impl Iterator<Item = &mut u8> {
    state[281..].chunks_mut(325).flat_map(|place| &mut place[261..])
}

/// A store formatted by the proved library.
pub fn formatted(g: Geometry) -> Store {
    Store::formatted(g).expect("a format of a good geometry")
}
