//! Every short session (document 02, point 13; docs/PAPERS.md) on both layers, grown from shorter ones, with data of their own and each cut done bit by bit:
//! the text of the program `short_sessions`, which tries every session by its number, with zeros.
mod common;

use bokuhira::{Call, Geometry, Store, DATA};
use common::{due_bits, formatted, lost_state, say, Layer, Rng, LAYERS};

const SIZE: Geometry = Geometry::new(8, 8, 16);
const EXPECTED: &str = include_str!("../../crates/short_sessions/stdout");

/// A session in which no command was refused: its command numbers, the device after it, and the maps recovered after its cuts.
#[derive(Clone)]
struct Session {
    numbers: Vec<String>,
    store: Store,
    maps: Vec<Vec<u16>>,
}

impl Session {
    fn line(&self) -> String {
        let maps = self.maps.iter().map(|map| map.iter().map(u16::to_string).collect::<Vec<_>>().join(","));
        let words: Vec<String> = [self.numbers.join(",")].into_iter().chain(maps).collect();
        words.join(" ") + "\n"
    }

    /// The session with one command more, unless that is refused.
    fn then(&self, layer: Layer, number: usize, call: &Call, rng: &mut Rng) -> Option<Session> {
        let mut next = self.clone();
        if layer.call(&mut next.store, call) != 0 {
            return None;
        }
        next.numbers.push(number.to_string());
        let due = due_bits(&self.store.array, &next.store.array);
        if !due.is_empty() {
            let mut array = self.store.array.clone();
            next.maps.push(recovered(layer, &array, rng));
            due.iter().for_each(|(at, mask)| array[*at] ^= mask);
            next.maps.push(recovered(layer, &array, rng));
        }
        Some(next)
    }
}

/// The map that a recover makes of an array, with any map, hold and state.
fn recovered(layer: Layer, array: &[u8], rng: &mut Rng) -> Vec<u16> {
    let mut store = Store::blank(SIZE);
    store.array.copy_from_slice(array);
    store.state = lost_state(rng);
    rng.fill(&mut store.hold);
    store.map.iter_mut().for_each(|e| *e = rng.next() as u16);
    assert_eq!(layer.call(&mut store, &Call::Recover(SIZE)), 0, "{layer:?}: a recover after a cut");
    store.map
}

/// The ten commands in the point's order, each write with bytes of its own.
fn commands(rng: &mut Rng) -> Vec<Call> {
    let mut all = vec![Call::Begin(1), Call::Begin(2)];
    for (id, lpn) in [(1, 0), (1, 1), (2, 0), (2, 1)] {
        all.push(Call::Write { id, lpn, data: rng.bytes(DATA) });
    }
    all.extend([Call::Commit(1), Call::Commit(2), Call::Abort(1), Call::Abort(2)]);
    all
}

#[test]
fn the_text_of_every_short_session() {
    for layer in LAYERS {
        let mut rng = Rng::new(13);
        let mut sessions = vec![Session { numbers: Vec::new(), store: formatted(SIZE), maps: Vec::new() }];
        let mut text = String::new();
        let mut counts = Vec::new();
        for _ in 0..=4 {
            counts.push(sessions.len());
            sessions.iter().for_each(|session| text += &session.line());
            let calls = commands(&mut rng);
            let longer = sessions
                .iter()
                .flat_map(|session| calls.iter().zip(1..).filter_map(|(call, n)| session.then(layer, n, call, &mut rng)).collect::<Vec<_>>());
            sessions = longer.collect();
        }
        assert_eq!(counts, [1, 2, 10, 44, 228], "{layer:?}: sessions of none to four commands");
        assert_eq!(text, EXPECTED, "{layer:?}");
        say(&format!("{layer:?}: {} sessions of none to four commands, as the program prints them", text.lines().count()));
    }
}
