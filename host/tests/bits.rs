//! Cuts bit by bit: the last program of a commit and of a lone write, and the program of a held drop, with every single due bit left out
//! in turn, and every prefix of an erase; on two planes a commit's mark and the page that runs beside it. After each, both layers recover with
//! any map, hold and state, and every logical page is read; and the page that was cut is torn by what its bits count.
mod common;

use bokuhira::{Answer, Call, Class, Geometry, Store, DATA, PAGE};
use common::{due_bits, lost_state, say, Done, Layer, Rng, Running, LAYERS};

const SIZE: Geometry = Geometry::new(8, 8, 16);

/// The settings: what each logical page holds, if it was ever written.
type Settings = Vec<Option<Vec<u8>>>;

/// A device in use, with its settings.
struct Device {
    g: Geometry,
    store: Store,
    settings: Settings,
    running: Vec<Running>,
    rng: Rng,
}

impl Device {
    /// Formatted, and with some pages written.
    fn new(g: Geometry, seed: u64, lone_writes: usize) -> Device {
        let store = Store::formatted(g).expect("a good geometry");
        let mut device = Device { g, store, settings: vec![None; g.logical as usize], running: Vec::new(), rng: Rng::new(seed) };
        for i in 0..lone_writes {
            let data = device.rng.bytes(DATA);
            device.lone(i as u16 % 10, &data);
        }
        device
    }

    fn lone(&mut self, lpn: u16, data: &[u8]) {
        assert_eq!(self.store.lone(lpn, data), Answer::Done);
        self.settings[lpn as usize] = Some(data.to_vec());
    }

    /// A call that is done, and the pages that run after it.
    fn done(&mut self, call: &Call) {
        let before = self.store.clone();
        assert_eq!(Layer::Proved.call(&mut self.store, call), 0, "{call:?}");
        self.running = Done { call, answer: 0, before: &before, after: &self.store.array }.after(&self.running);
    }

    /// Every logical page reads as the settings have it, once an array with any map, hold and state was recovered.
    fn recovers(&mut self, array: &[u8], settings: &Settings, what: &str) {
        for layer in LAYERS {
            self.store.array.copy_from_slice(array);
            self.store.state = lost_state(&mut self.rng);
            self.rng.fill(&mut self.store.hold);
            self.store.map.iter_mut().for_each(|e| *e = self.rng.next() as u16);
            assert_eq!(layer.call(&mut self.store, &Call::Recover(self.g)), 0, "{layer:?}, {what}");
            for (lpn, setting) in settings.iter().enumerate() {
                let due = setting.as_deref().ok_or(14);
                assert_eq!(layer.read(&self.store, lpn as u16), due, "{layer:?}, {what}: logical page {lpn}");
            }
        }
    }

    /// The array before a call and its due bits, on both layers.
    fn due(&self, call: &Call) -> (Vec<u8>, Vec<(usize, u8)>) {
        let after = LAYERS.map(|layer| {
            let mut after = self.store.clone();
            assert_eq!(layer.call(&mut after, call), 0, "{layer:?}, {call:?}");
            after
        });
        assert!(after[0] == after[1], "the layers differ after {call:?}");
        (self.store.array.clone(), due_bits(&self.store.array, &after[0].array))
    }

    /// The call's page with every due bit but one: the old settings, and a page torn by that bit. With all: the new.
    fn each_bit_left_out(mut self, call: &Call, new: Settings) -> usize {
        let (before, due) = self.due(call);
        let mut array = before.clone();
        due.iter().for_each(|(at, mask)| array[*at] ^= mask);
        self.recovers(&array, &new, "all due bits turned");
        let old = self.settings.clone();
        self.each_left_out_of(&array, &due, &old);
        self.recovers(&before, &old, "no due bit turned");
        due.len()
    }

    /// An array with each of these due bits left out in turn: these settings, and a page torn by that bit.
    fn each_left_out_of(&mut self, array: &[u8], due: &[(usize, u8)], settings: &Settings) {
        let mut array = array.to_vec();
        for (n, (at, mask)) in due.iter().enumerate() {
            array[*at] ^= mask;
            self.recovers(&array, settings, &format!("due bit {n} of {} left out", due.len()));
            is_torn_by(&array, *at, counts(*at, *mask));
            array[*at] ^= mask;
        }
    }

    /// Every prefix of the due bits of an erase, from none to all: the settings are as they were, and the page with the bit that was turned
    /// last is torn by all that were turned there. Now and then the same command is then run to its end, and they still are.
    fn each_prefix(mut self, call: &Call) -> usize {
        let (mut array, due) = self.due_of_erase(call);
        let settings = self.settings.clone();
        let (mut page, mut by) = (0, 0);
        for n in 0..=due.len() {
            self.recovers(&array, &settings, &format!("the first {n} of {} bits erased", due.len()));
            if n % 1_000 == 0 || n == due.len() {
                while more_strides(&mut self.store, call) {}
                let array = self.store.array.clone();
                self.recovers(&array, &settings, &format!("{call:?} done after {n} bits erased"));
            }
            if let Some((at, mask)) = due.get(n) {
                array[*at] ^= mask;
                by = counts(*at, *mask) + if at / PAGE == page { by } else { 0 };
                page = at / PAGE;
                is_torn_by(&array, *at, by);
            }
        }
        due.len()
    }

    /// Strides until the next one erases; then the array and the bits that the erase is to turn to ones.
    fn due_of_erase(&mut self, call: &Call) -> (Vec<u8>, Vec<(usize, u8)>) {
        for _ in 0..100 {
            let mut after = self.store.clone();
            assert!([0, 255].contains(&Layer::Proved.call(&mut after, call)));
            let due = due_bits(&self.store.array, &after.array);
            if due.iter().any(|(at, mask)| self.store.array[*at] & mask == 0) {
                return (self.store.array.clone(), due);
            }
            self.store = after;
        }
        panic!("{call:?} never erases");
    }
}

/// What a bit counts in the difference between Zeros and the zero bits: 1, and in Zeros its value there.
fn counts(at: usize, mask: u8) -> i32 {
    match at % PAGE {
        526 => mask.into(),
        527 => i32::from(mask) << 8,
        _ => 1,
    }
}

/// The page of a byte is torn by so much, on both layers. An erased page has the most that there can be.
fn is_torn_by(array: &[u8], at: usize, by: i32) {
    let due = if by == 0xFFFF { Class::Erased } else { Class::Torn(by) };
    for layer in LAYERS {
        assert_eq!(layer.class(&array[at / PAGE * PAGE..][..PAGE]), Some(due), "{layer:?}: page {}, byte {}", at / PAGE, at % PAGE);
    }
}

/// One stride; whether more are to follow.
fn more_strides(store: &mut Store, call: &Call) -> bool {
    let answer = Layer::Proved.call(store, call);
    assert!(answer == 0 || answer == 255, "{call:?} answers {answer}");
    answer == 255
}

/// Pages of any bytes, and one of zeros, of which every bit is due.
fn last_pages(rng: &mut Rng) -> [Vec<u8>; 2] {
    [rng.bytes(DATA), vec![0; DATA]]
}

#[test]
fn a_commit_without_any_one_bit_is_no_commit() {
    for (seed, last) in (1..).zip(last_pages(&mut Rng::new(10))) {
        let mut device = Device::new(SIZE, seed, 6);
        let mut new = device.settings.clone();
        assert_eq!(device.store.begin(77), Answer::Done);
        let writes = [(2, device.rng.bytes(DATA)), (12, device.rng.bytes(DATA)), (4, last)];
        for (lpn, data) in writes {
            assert_eq!(device.store.write(77, lpn, &data), Answer::Done);
            new[lpn as usize] = Some(data);
        }
        let bits = device.each_bit_left_out(&Call::Commit(77), new);
        say(&format!("bits: a commit with each of {bits} due bits left out"));
        assert!(bits > 1_000);
    }
}

/// On two planes the mark is programmed while the page before it still runs, one of the same change or of another. Without any one bit of the
/// mark, or of a page of its change, it is no commit; a bit of another change's page it does not need. Before the mark begins the page in its
/// plane runs too, and no bit of either page matters.
#[test]
fn a_commit_beside_a_running_page() {
    for (seed, beside) in [(60, 77), (61, 78)] {
        let mut device = Device::new(SIZE.with_planes(2), seed, 6);
        let mut new = device.settings.clone();
        device.done(&Call::Begin(77));
        device.done(&Call::Begin(78));
        let writes: [(u32, u16); 4] = [(77, 2), (beside, 12), (77, 4), (beside, 12)];
        for (id, lpn) in writes {
            let data = device.rng.bytes(DATA);
            device.done(&Call::Write { id, lpn, data: data.clone() });
            if id == 77 {
                new[lpn as usize] = Some(data);
            }
        }
        let commit = Call::Commit(77);
        let (before, due) = device.due(&commit);
        let mut array = before.clone();
        due.iter().for_each(|(at, mask)| array[*at] ^= mask);
        let during = Done { call: &commit, answer: 0, before: &device.store, after: &array }.during(&device.running);
        let ids = |running: &[Running]| running.iter().map(|r| r.id).collect::<Vec<_>>();
        assert_eq!((ids(&device.running).len(), ids(&during)), (2, vec![beside]), "one of the two that run has ended");

        let old = device.settings.clone();
        device.recovers(&array, &new, "all due bits turned");
        device.each_left_out_of(&array, &due, &old);
        let running = during[0].due_bits(&array);
        let needed = beside == 77;
        device.each_left_out_of(&array, &running, if needed { &old } else { &new });
        for r in device.running.clone() {
            device.each_left_out_of(&before, &r.due_bits(&before), &old);
        }
        say(&format!("bits: a commit of {} due bits beside a running page of {}, each left out", due.len(), running.len()));
        assert!(due.len() > 1_000 && running.len() > 1_000);
    }
}

/// The settings without a page.
fn without(settings: &Settings, lpn: usize) -> Settings {
    settings.iter().enumerate().map(|(i, s)| s.clone().filter(|_| i != lpn)).collect()
}

/// The mark is a drop: of a page that was written before, in this change, and never.
#[test]
fn a_commit_that_drops_without_any_one_bit_is_no_commit() {
    for (seed, lpn) in (40..).zip([4, 12, 15]) {
        let mut device = Device::new(SIZE, seed, 6);
        let data = device.rng.bytes(DATA);
        assert_eq!(device.store.begin(77), Answer::Done);
        assert_eq!(device.store.drop_page(77, 2), Answer::Done);
        assert_eq!(device.store.write(77, 12, &data), Answer::Done);
        assert_eq!(device.store.drop_page(77, lpn), Answer::Done);
        let mut new = without(&device.settings, 2);
        new[12] = Some(data);
        new[lpn as usize] = None;
        let bits = device.each_bit_left_out(&Call::Commit(77), new);
        say(&format!("bits: a commit whose mark is a drop with each of {bits} due bits left out"));
        // of the spare area alone: the data are all ones
        assert!(bits > 80 && bits < 128);
    }
}

/// The next write or drop of a change programs the drop that it holds: nothing is entered by it, with all due bits or without one.
#[test]
fn a_held_drop_that_is_programmed_changes_nothing() {
    let data = Rng::new(50).bytes(DATA);
    for (seed, call) in (50..).zip([Call::Write { id: 77, lpn: 3, data }, Call::Drop { id: 77, lpn: 3 }]) {
        let mut device = Device::new(SIZE, seed, 6);
        assert_eq!(device.store.begin(77), Answer::Done);
        assert_eq!(device.store.drop_page(77, 2), Answer::Done);
        let old = device.settings.clone();
        let bits = device.each_bit_left_out(&call, old);
        say(&format!("bits: the program of a held drop with each of {bits} due bits left out"));
        assert!(bits > 80 && bits < 128);
    }
}

#[test]
fn a_lone_write_without_any_one_bit_is_no_write() {
    for (seed, data) in (3..).zip(last_pages(&mut Rng::new(30))) {
        let device = Device::new(SIZE, seed, 6);
        let mut new = device.settings.clone();
        new[3] = Some(data.clone());
        let bits = device.each_bit_left_out(&Call::Lone { lpn: 3, data }, new);
        say(&format!("bits: a lone write with each of {bits} due bits left out"));
        assert!(bits > 1_000);
    }
}

#[test]
fn every_prefix_of_a_reclaims_erase_keeps_the_settings() {
    // fills two blocks; after a checkpoint they are checkpointed, and pages written again leave one of them with few mapped pages
    let mut device = Device::new(SIZE, 5, 16);
    while more_strides(&mut device.store, &Call::Checkpoint) {}
    for lpn in [0, 1, 8] {
        let data = device.rng.bytes(DATA);
        device.lone(lpn, &data);
    }
    assert_eq!(device.store.reclaim(), Answer::More, "a page is copied before the erase");
    let bits = device.each_prefix(&Call::Reclaim);
    say(&format!("bits: every prefix of the {bits} bits of a reclaim's erase"));
    assert!(bits > 10_000);
}

#[test]
fn every_prefix_of_a_checkpoints_erase_keeps_the_settings() {
    // L = 16 and P = 8: two pages a checkpoint, so the ninth in all erases a front block that holds four
    let mut device = Device::new(SIZE, 6, 6);
    for _ in 0..7 {
        while more_strides(&mut device.store, &Call::Checkpoint) {}
    }
    let bits = device.each_prefix(&Call::Checkpoint);
    say(&format!("bits: every prefix of the {bits} bits of a checkpoint's erase"));
    assert!(bits > 10_000);
}
