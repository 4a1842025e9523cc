//! Benchmarks: the proved layer beside the plain Rust one, in one run on the same arrays. Each time is the least of several rounds taken in
//! turn. What is missed is said once, at the end. Layers that leave different stores end the run with an error.

#[path = "../../tests/common/array.rs"]
mod array;
mod arrays;
#[allow(dead_code)] // the tests read through it too
#[path = "../../tests/common/layer.rs"]
mod layer;
mod pages;
mod session;
mod setup;
mod stack;
mod table;

use bokuhira::{Answer, Call, Class, Geometry, State, Store};
use layer::{Layer, LAYERS};
use session::{ALWAYS, COMMANDS, FEW};
use setup::{name, on_planes, GEOMETRIES};
use std::time::Instant;
use table::Table;

const HELP: &str = "bench: the proved layer beside plain Rust, as tables of ratios

  bench [pages | commands | recover | wear | stack]...     some of the tables; all where none is named

Rounds are taken in turn and the least time counts. What is missed is said at the end; the exit status is 0 once all is measured.";

/// What two readings of the clock take.
fn clock() -> f64 {
    (0..1000).map(|_| Instant::now().elapsed().as_nanos() as f64).fold(f64::MAX, f64::min)
}

fn commands(table: &mut Table) {
    let clock = clock();
    let (mut lowest, mut highest) = (f64::MAX, f64::MIN);
    for (g, turns) in GEOMETRIES.into_iter().zip([2000, 1200, 1200]) {
        // by planes, command and layer
        let mut least = [[[f64::MAX; 2]; COMMANDS.len()]; 2];
        for round in 0..15 {
            for (g, least) in on_planes(g).into_iter().zip(&mut least) {
                let left = LAYERS.map(|layer| session::run(layer, g, turns, 7, clock, ALWAYS));
                for (i, (tally, _)) in left.iter().enumerate() {
                    for (c, least) in least.iter_mut().enumerate() {
                        assert!(tally.calls[c] > 0, "no {} in the session", COMMANDS[c]);
                        least[i] = least[i].min(tally.ns[c] / tally.calls[c] as f64);
                    }
                }
                assert!(left[0].1 == left[1].1, "round {round}: the two layers left different stores");
            }
        }
        let one = least[0];
        for (g, least) in on_planes(g).into_iter().zip(least) {
            let two = g.planes == 2;
            table.head(&format!("a call, {}", name(g)), two.then_some("of one plane"), None);
            for (c, what) in COMMANDS.into_iter().enumerate() {
                let ratio = table.line(what, least[c], two.then_some(one[c][0]));
                (lowest, highest) = (lowest.min(ratio), highest.max(ratio));
            }
        }
    }
    let why = "the state is decoded, handed on by value and encoded again";
    table.hold(table::meets(highest, 1.0), &format!("calls take {lowest:.2} to {highest:.2} times the time of plain Rust, goal 1.0: {why}"));
}

/// A way to recover: by the proved layer, by the plain one, or by the program that rescans.
type Way = fn(&mut Store, Geometry) -> u8;
const PROVED: Way = |s, g| Layer::Proved.call(s, &Call::Recover(g));
const PLAIN: Way = |s, g| Layer::Plain.call(s, &Call::Recover(g));
const RESCAN: Way = |s, g| plain::rescan(&s.array, &mut s.map, &s.hold, &mut s.state, g.blocks, g.pages, g.logical, g.planes);

/// The least time of a recovery from nothing but the array, of each array in each way; the arrays are of one length. Buffers are used again: memory
/// that is given back and taken anew would slow down the lists of plain Rust alone.
fn recovery<const N: usize>(arrays: &[(Geometry, Vec<u8>)], ways: [Way; N], rounds: usize) -> Vec<[f64; N]> {
    let mut least = vec![[f64::MAX; N]; arrays.len()];
    let mut stores = ways.map(|_| Store::blank(arrays[0].0));
    for round in 0..rounds {
        for ((g, array), least) in arrays.iter().zip(&mut least) {
            let mut left: Vec<&Store> = Vec::new();
            for ((way, least), dark) in ways.into_iter().zip(least).zip(&mut stores) {
                // what takes long is tried a few times only
                if round > 2 && *least > 20e6 {
                    continue;
                }
                dark.array.copy_from_slice(array);
                dark.map.fill(7);
                dark.hold.fill(9);
                dark.state.fill(0);
                let before = Instant::now();
                let answer = way(std::hint::black_box(dark), *g);
                *least = least.min(before.elapsed().as_nanos() as f64);
                assert_eq!(answer, 0);
                left.push(dark);
            }
            assert!(left.iter().all(|l| l == &left[0]), "the same array was recovered differently");
        }
    }
    least
}

/// The pages that a recovery scans: those of every listed block.
fn scanned(s: &Store) -> usize {
    let state = State::decode(&s.state).unwrap();
    (state.zones.available.len() + state.zones.unavailable.len()) * state.geometry.pages as usize
}

/// Recovery of what a session leaves on each of these devices, so many blocks listed: the pages scanned, as many on each, and the least times.
fn measured<const N: usize>(sizes: &[Geometry], blocks: usize, stay: u32, ways: [Way; N]) -> (usize, Vec<[f64; N]>) {
    let stores: Vec<Store> = sizes.iter().map(|g| session::listed(*g, blocks, stay)).collect();
    let pages = scanned(&stores[0]);
    assert!(stores.iter().all(|s| scanned(s) == pages));
    let arrays: Vec<_> = sizes.iter().copied().zip(stores.into_iter().map(|s| s.array)).collect();
    (pages, recovery(&arrays, ways, if pages > 192 { 101 } else { 401 }))
}

/// Few blocks listed, and all that there are.
fn lists(g: Geometry) -> [(&'static str, usize); 2] {
    [("few", 3), ("all", g.blocks as usize - 2)]
}

fn recover(table: &mut Table) {
    let measured = |g, blocks| measured(&[g], blocks, session::LONE, [PROVED, PLAIN, RESCAN]);
    let mut lines = Vec::new();
    let mut growth = Vec::new();
    for g in GEOMETRIES {
        growth.clear();
        for (word, blocks) in lists(g) {
            let (pages, times) = measured(g, blocks);
            lines.push((format!("{}, {word} blocks listed: {pages} pages scanned", name(g)), times[0]));
            growth.push((pages, times));
        }
    }
    for (beside, other) in [("the plain layer", 1), ("a program that rescans", 2)] {
        table.head(&format!("recover, beside {beside}"), None, Some(1.2));
        for (what, times) in &lines {
            table.line(what, [times[0], times[other]], None);
        }
    }
    let g = GEOMETRIES[2];
    growth.splice(1..1, [16, 32, 64, 96].map(|blocks| measured(g, blocks)));
    println!("\n| {}: pages scanned | proved | ns a page |\n|---|---|---|", name(g));
    for (pages, times) in growth {
        let proved = times[0][0];
        println!("| {pages} | {:.1} µs | {:.0} |", proved / 1e3, proved / pages as f64);
    }
}

/// Two planes beside one, in arrays that sessions of the layer left.
fn recover_planes(table: &mut Table) {
    table.head("recover, two planes", Some("of one plane"), Some(1.2));
    for g in GEOMETRIES {
        for (kind, stay) in [("lone pages, 8 open changes", session::LONE), ("changes of 1 to 8 pages, 8 open changes", session::CHANGES)] {
            for (_, blocks) in lists(g) {
                let (pages, times) = measured(&on_planes(g), blocks, stay, [PROVED, PLAIN]);
                table.line(&format!("{}, {kind}: {pages} pages scanned", name(g)), times[1], Some(times[0][0]));
            }
        }
    }
}

/// Full arrays of many kinds: none may take much longer than the first.
fn recover_any(table: &mut Table) {
    let sizes = on_planes(GEOMETRIES[2]);
    let arrays: Vec<_> = sizes.iter().flat_map(|g| arrays::KINDS.map(|(_, kind)| (*g, arrays::full(*g, kind)))).collect();
    let times = recovery(&arrays, [PROVED, PLAIN], 101);
    for (g, of_size) in sizes.into_iter().zip(times.chunks(arrays::KINDS.len())) {
        let pages = (g.blocks - 2) * g.pages;
        let first = if g.planes == 2 { "of the first of one plane" } else { "of the first" };
        table.head(&format!("recover of any array, {}: {pages} pages scanned", name(g)), Some(first), Some(1.7));
        for ((what, _), least) in arrays::KINDS.iter().zip(of_size) {
            table.line(what, *least, Some(times[0][0]));
        }
    }
}

fn wear() {
    println!("\n| a random session | calls | pages written | programs a page | erases a page |\n|---|---|---|---|---|");
    for g in GEOMETRIES.into_iter().flat_map(on_planes) {
        let (t, _) = session::run(Layer::Proved, g, 60_000, 11, 0.0, FEW);
        let per = |n: u64| n as f64 / t.pages as f64;
        println!("| {} | {} | {} | {:.2} | {:.3} |", name(g), t.calls.iter().sum::<u64>(), t.pages, per(t.programs), per(t.erases));
    }
}

/// The stack of each call on a device, in bytes.
fn depths(g: Geometry) -> Vec<(&'static str, usize)> {
    let full = session::listed(g, g.blocks as usize - 2, session::CHANGES);
    let (_, mut room) = session::run(Layer::Proved, g, 1200, 7, 0.0, ALWAYS);
    while room.checkpoint().more().expect("a checkpoint") {}
    assert_eq!(room.begin(0xABCDEF), Answer::Done);
    let data = vec![3; 512];
    assert_eq!(room.write(0xABCDEF, 1, &data), Answer::Done);
    let calls: [(&str, Call, &Store, &[u8]); 11] = [
        ("format", Call::Format(g), &full, &[255]),
        ("recover", Call::Recover(g), &full, &[0]),
        ("begin", Call::Begin(0xBCDEF0), &room, &[0]),
        ("write", Call::Write { id: 0xABCDEF, lpn: 3, data: data.clone() }, &room, &[0]),
        ("drop", Call::Drop { id: 0xABCDEF, lpn: 3 }, &room, &[0]),
        ("lone write", Call::Lone { lpn: 3, data }, &room, &[0]),
        ("commit", Call::Commit(0xABCDEF), &room, &[0]),
        ("abort", Call::Abort(0xABCDEF), &room, &[0]),
        ("read", Call::Read(1), &room, &[0, 14]),
        ("checkpoint", Call::Checkpoint, &room, &[255]),
        ("reclaim", Call::Reclaim, &room, &[0, 255]),
    ];
    let deepest = calls.map(|(what, call, store, answers)| {
        // several strides: the deepest counts
        let mut s = store.clone();
        let mut deepest = 0;
        loop {
            let mut answer = 1;
            let bytes = stack::used(&mut || answer = s.call(&call).number());
            deepest = deepest.max(bytes);
            if answer != 255 {
                assert!(answer == 0 || answers.contains(&answer), "{what} answered {answer}");
                return (what, deepest);
            }
        }
    });
    let mut class = None;
    let bytes = stack::used(&mut || class = full.class(0));
    assert_eq!(class, Some(Class::Whole));
    [&deepest[..], &[("class of a page", bytes)]].concat()
}

/// Held to what include/bokuhira.h says of it.
fn stack(table: &mut Table) {
    let g = GEOMETRIES[2];
    let [one, two] = on_planes(g).map(depths);
    println!("\n| bytes of stack of a call, {} | one plane | two planes |\n|---|---|---|", name(g));
    for ((what, one), (_, two)) in one.into_iter().zip(two) {
        println!("| {what} | {one} | {two} |");
        let deepest = one.max(two);
        let limit = match what {
            "recover" => 59,
            "commit" => 43,
            "reclaim" => 34,
            _ => 30,
        } * 1024;
        table.hold(deepest < limit, &format!("{what} uses {deepest} bytes of stack, limit {limit}"));
    }
}

fn main() {
    let words: Vec<String> = std::env::args().skip(1).collect();
    const TABLES: [&str; 5] = ["pages", "commands", "recover", "wear", "stack"];
    if let Some(other) = words.iter().find(|w| !TABLES.contains(&w.as_str())) {
        let asked = other == "help" || other == "--help" || other == "-h";
        if !asked {
            eprintln!("bench: no table {other}\n");
        }
        println!("{HELP}");
        std::process::exit(if asked { 0 } else { 2 });
    }
    let wanted = |what: &str| words.is_empty() || words.iter().any(|w| w == what);
    let mut table = Table::default();
    if wanted("pages") {
        table.head("a page", None, Some(1.0));
        pages::run(&mut table);
    }
    if wanted("commands") {
        commands(&mut table);
    }
    if wanted("recover") {
        recover(&mut table);
        recover_planes(&mut table);
        recover_any(&mut table);
    }
    if wanted("wear") {
        wear();
    }
    if wanted("stack") {
        stack(&mut table);
    }
    table.finish();
}
