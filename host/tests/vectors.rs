//! Replays traces of document 01 (docs/PAPERS.md), call by call, through the proved library and through the plain layer: answer, operation,
//! array, map, hold and state, the pages that run, and the classes of pages. traces/README.md says what a line means; traces/counts pins how
//! many steps each trace compares.
mod common;

use bokuhira::{Call, Class, Geometry, Kind, Place, Plane, State, Store, Work, Zones, PAGE, STATE};
use common::{due_bits, formatted, put, say, spare, whole_page, Done, Layer, Running, LAYERS};
use std::collections::BTreeMap;
use std::path::PathBuf;

const KINDS: [(Kind, &str); 4] = [(Kind::Idle, "idle"), (Kind::Format, "format"), (Kind::Checkpoint, "checkpoint"), (Kind::Reclaim, "reclaim")];
const PLANES: [(Plane, &str); 3] = [(Plane::Neither, "neither"), (Plane::Even, "even"), (Plane::Odd, "odd")];

/// 64-bit FNV-1a.
fn fnv(bytes: impl IntoIterator<Item = u8>) -> u64 {
    bytes.into_iter().fold(0xcbf29ce484222325, |h, b| (h ^ b as u64).wrapping_mul(0x100000001b3))
}

/// The array last seen and the digests of its pages, so that only pages that changed are read through again.
#[derive(Default)]
struct Digests {
    array: Vec<u8>,
    pages: Vec<u64>,
}

impl Digests {
    fn of_array(&mut self, array: &[u8]) -> u64 {
        if self.array.len() != array.len() {
            self.array = Vec::new();
            self.pages.resize(array.len() / PAGE, 0);
        }
        for (at, page) in array.chunks(PAGE).enumerate() {
            if self.array.get(at * PAGE..(at + 1) * PAGE) != Some(page) {
                self.pages[at] = fnv(page.iter().copied());
            }
        }
        self.array = array.to_vec();
        fnv(self.pages.iter().flat_map(|d| d.to_be_bytes()))
    }

    /// What a call left, as a trace says it.
    fn left(&mut self, w: &Store) -> String {
        let map = fnv(w.map.iter().flat_map(|x| x.to_le_bytes()));
        let hold = fnv(w.hold.iter().copied());
        format!("array={:016x} map={map:016x} hold={hold:016x} state {}", self.of_array(&w.array), state_words(&w.state))
    }
}

/// The data of a seed, or `short`.
fn data_of(word: &str) -> Vec<u8> {
    let (seed, n) = if word == "short" { (0, 511) } else { (number(word), 512) };
    (0..n).map(|i: u64| ((31 * seed + 7 * i + 13 * (i / 256)) % 256) as u8).collect()
}

fn number<T: TryFrom<u64>>(word: &str) -> T {
    let n: u64 = word.parse().unwrap_or_else(|_| panic!("{word} is no number"));
    T::try_from(n).unwrap_or_else(|_| panic!("{n} is too high"))
}

/// Three numbers are a geometry of one plane; a fourth is the planes.
fn geometry_of(words: &[&str]) -> Geometry {
    let planes = words.get(3).map_or(1, |word| number(word));
    Geometry::new(number(words[0]), number(words[1]), number(words[2])).with_planes(planes)
}

fn call_of(words: &[&str]) -> Call {
    let g = || geometry_of(&words[1..]);
    match words[0] {
        "format" => Call::Format(g()),
        "recover" => Call::Recover(g()),
        "begin" => Call::Begin(number(words[1])),
        "write" => Call::Write { id: number(words[1]), lpn: number(words[2]), data: data_of(words[3]) },
        "drop" => Call::Drop { id: number(words[1]), lpn: number(words[2]) },
        "lone" => Call::Lone { lpn: number(words[1]), data: data_of(words[2]) },
        "commit" => Call::Commit(number(words[1])),
        "abort" => Call::Abort(number(words[1])),
        "read" => Call::Read(number(words[1])),
        "checkpoint" => Call::Checkpoint,
        "reclaim" => Call::Reclaim,
        other => panic!("no call {other}"),
    }
}

fn list<T: ToString>(numbers: &[T]) -> String {
    numbers.iter().map(|x| x.to_string()).collect::<Vec<_>>().join(",")
}

fn numbers<T: TryFrom<u64>>(words: &str) -> Vec<T> {
    words.split(',').filter(|x| !x.is_empty()).map(number).collect()
}

/// A state as a trace writes it.
fn state_words(bytes: &[u8]) -> String {
    let Some(s) = State::decode(bytes) else { return "none".to_string() };
    let place = |p: &Place| {
        if p.is_free() {
            return "-".to_string();
        }
        let written: Vec<String> = p.lpns.iter().zip(&p.drops).map(|(lpn, drop)| format!("{}{lpn}", if *drop { "~" } else { "" })).collect();
        let programmed: Vec<String> = written.iter().zip(&p.ppns).map(|(lpn, ppn)| format!("{lpn}@{ppn}")).collect();
        format!("{}[{}]{}", p.id, programmed.join(","), written.last().map_or("", String::as_str))
    };
    let places: Vec<String> = s.places.iter().map(place).collect();
    let kind = KINDS.iter().find(|(k, _)| *k == s.work.kind).unwrap().1;
    let last = PLANES.iter().find(|(p, _)| *p == s.last).unwrap().1;
    let Geometry { blocks, pages, logical, planes } = s.geometry;
    let Zones { available, unavailable, free, pointer } = s.zones;
    let zones = format!("available={} unavailable={} free={} pointer={pointer}", list(&available), list(&unavailable), list(&free));
    let work = format!("front={}:{} work={kind}:{} last={last}", s.front, s.first, s.work.stride);
    let places = places.join(" ");
    format!("{blocks} {pages} {logical} {planes} {zones} version={} checkpoint={} {work} places={places}", s.version, s.checkpoint)
}

/// The words of a state with the planes and the last plane, which a trace may leave out: one plane, and neither.
fn in_full<'a>(words: &[&'a str]) -> Vec<&'a str> {
    let mut words = words.to_vec();
    if words[3].contains('=') {
        words.insert(3, "1");
    }
    if !words.iter().any(|w| w.starts_with("last=")) {
        let places = words.iter().position(|w| w.starts_with("places=")).unwrap();
        words.insert(places, "last=neither");
    }
    words
}

/// The bytes of a state that a trace writes; what stands past a count is 0.
fn state_of(words: &[&str]) -> Vec<u8> {
    let words = in_full(words);
    let fields: BTreeMap<&str, &str> = words[4..].iter().filter_map(|w| w.split_once('=')).collect();
    let zones = Zones {
        available: numbers(fields["available"]),
        unavailable: numbers(fields["unavailable"]),
        free: numbers(fields["free"]),
        pointer: number(fields["pointer"]),
    };
    let (front, first) = fields["front"].split_once(':').unwrap();
    let (kind, stride) = fields["work"].split_once(':').unwrap();
    let kind = KINDS.iter().find(|(_, name)| *name == kind).unwrap().0;
    let last = PLANES.iter().find(|(_, name)| *name == fields["last"]).unwrap().0;
    let from = words.iter().position(|w| w.starts_with("places=")).unwrap();
    let place = |word: &&str| {
        let Some((id, rest)) = word.trim_start_matches("places=").split_once('[') else { return Place::default() };
        let (programmed, held) = rest.split_once(']').unwrap();
        let pairs: Vec<(&str, &str)> = programmed.split(',').filter_map(|x| x.split_once('@')).collect();
        let written: Vec<&str> = pairs.iter().map(|(lpn, _)| *lpn).chain(Some(held).filter(|h| !h.is_empty())).collect();
        let lpns = written.iter().map(|lpn| number(lpn.trim_start_matches('~'))).collect();
        let drops = written.iter().map(|lpn| lpn.starts_with('~')).collect();
        Place { id: number(id), lpns, ppns: pairs.iter().map(|(_, ppn)| number(ppn)).collect(), drops }
    };
    let state = State {
        geometry: geometry_of(&words[..4]),
        zones,
        version: number(fields["version"]),
        checkpoint: number(fields["checkpoint"]),
        front: number(front),
        first: number(first),
        work: Work { kind, stride: number(stride) },
        last,
        places: words[from..from + 8].iter().map(place).collect(),
    };
    state.encode()
}

/// Which of so many due bits HOW picks.
fn turned(due: usize, how: &[&str]) -> Vec<bool> {
    let n = |i: usize| how[i].parse::<usize>().unwrap();
    let picks = |at: usize| match how[0] {
        "none" => false,
        "all" => true,
        "every" => at % n(1) == n(2),
        "first" => at < n(1),
        "last" => at + n(1) >= due,
        "but" => at != n(1),
        other => panic!("no cut {other}"),
    };
    (0..due).map(picks).collect()
}

/// A world, and the pages that run in it.
#[derive(Clone)]
struct World {
    store: Store,
    running: Vec<Running>,
}

impl World {
    fn blank(g: Geometry) -> World {
        World { store: Store::blank(g), running: Vec::new() }
    }

    /// A call: its answer, and what runs after it.
    fn call(&mut self, layer: Layer, call: &Call) -> u8 {
        let before = self.store.clone();
        let answer = layer.call(&mut self.store, call);
        self.running = Done { call, answer, before: &before, after: &self.store.array }.after(&self.running);
        answer
    }

    /// The pages that run, as a trace writes them.
    fn running_words(&self) -> String {
        let mut running: Vec<&Running> = self.running.iter().collect();
        running.sort_by_key(|r| r.page);
        running.iter().map(|r| format!("{}@{}", r.id, r.page)).collect::<Vec<_>>().join(",")
    }

    /// A cut: its parts are a call or `between`, HOW of the call's operation, or `early`, and each page that then runs with HOW. The error
    /// names the pages that run where it names others.
    fn cut(&mut self, layer: Layer, parts: &[&[&str]]) -> Result<(), String> {
        let mut running = std::mem::take(&mut self.running);
        let between = parts[0] == ["between"];
        let (how, pages) = if between { (&["early"][..], &parts[1..]) } else { (parts[1], &parts[2..]) };
        if how != ["early"] {
            let call = &call_of(parts[0]);
            let mut after = self.store.clone();
            // a call that is cut gives no answer, but it does no more than it would have done
            let answer = layer.call(&mut after, call);
            running = Done { call, answer, before: &self.store, after: &after.array }.during(&running);
            let due = due_bits(&self.store.array, &after.array);
            for ((at, mask), _) in due.iter().zip(turned(due.len(), how)).filter(|(_, turned)| *turned) {
                self.store.array[*at] ^= mask;
            }
        }
        running.sort_by_key(|r| r.page);
        if !pages.iter().map(|p| number::<usize>(p[0])).eq(running.iter().map(|r| r.page)) {
            return Err(format!("these pages run: {:?}", running.iter().map(|r| r.page).collect::<Vec<_>>()));
        }
        for (r, page) in running.iter().zip(pages) {
            let due = r.due_bits(&self.store.array).len();
            r.cut(&mut self.store.array, &turned(due, &page[1..]));
        }
        Ok(())
    }
}

/// Whether the arrays differ as the operation that a trace names says.
fn op_agrees(before: &[u8], after: &[u8], op: &str, pages: usize) -> bool {
    let words: Vec<&str> = op.split_whitespace().collect();
    let (range, inside): (_, fn(&[u8], &[u8]) -> bool) = match words[0] {
        "-" => (0..0, |_, _| true),
        "program" => {
            let k: usize = number(words[1]);
            (k * PAGE..(k + 1) * PAGE, |x, y| x.iter().all(|b| *b == 255) && x != y)
        }
        "erase" => {
            let b: usize = number(words[1]);
            (b * pages * PAGE..(b + 1) * pages * PAGE, |_, y| y.iter().all(|b| *b == 255))
        }
        other => panic!("no operation {other}"),
    };
    before[..range.start] == after[..range.start] && before[range.end..] == after[range.end..] && inside(&before[range.clone()], &after[range])
}

/// A class as a trace writes it.
fn class_words(class: Class) -> String {
    match class {
        Class::Torn(by) => format!("torn {by}"),
        other => other.word().to_string(),
    }
}

/// What was found, where that is not what the trace says.
fn agree(got: String, said: &str) -> Result<(), String> {
    if got == said {
        Ok(())
    } else {
        Err(got)
    }
}

/// What is left, as a trace says it, with the state in full.
fn left_in_full(said: &str) -> String {
    let (digests, state) = said.split_once(" state ").unwrap();
    format!("{digests} state {}", in_full(&state.split_whitespace().collect::<Vec<_>>()).join(" "))
}

/// What a call line leaves, where that is not what the trace says.
fn call_line(layer: Layer, digests: &mut Digests, world: &mut World, words: &[&str], said: &str) -> Result<(), String> {
    let before = world.store.clone();
    let (said, running) = said.split_once(" running=").unwrap_or((said, ""));
    if words[0] == "format-to-the-end" {
        let Call::Format(g) = call_of(&[&["format"], &words[1..]].concat()) else { unreachable!() };
        let strides = g.blocks as usize + g.map_pages() + 1;
        let answers: Vec<u8> = (0..strides).map(|_| world.call(layer, &Call::Format(g))).collect();
        if answers[..strides - 1].iter().any(|a| *a != 255) {
            return Err(format!("format answered {answers:?}"));
        }
        return agree(format!("{} {}", answers[strides - 1], digests.left(&world.store)), &left_in_full(said));
    }
    let call = call_of(words);
    let answer = world.call(layer, &call);
    let w = &world.store;
    if let Call::Read(lpn) = call {
        let part = layer.read(w, lpn);
        if *w != before || part.err().unwrap_or(0) != answer {
            return Err(format!("{answer}, then the part {part:?}"));
        }
        let digest = part.map_or("-".to_string(), |p| format!("{:016x}", fnv(p.iter().copied())));
        return agree(format!("{answer} {digest}"), said);
    }
    let (expected, rest) = said.split_once(' ').unwrap();
    let (op, due) = rest.strip_prefix('(').unwrap().split_once(") ").unwrap();
    if answer != number::<u8>(expected) {
        return Err(format!("answer {answer}"));
    }
    let pages = State::decode(&w.state).map_or(0, |s| s.geometry.pages as usize);
    if !op_agrees(&before.array, &w.array, op, pages) {
        return Err(format!("another operation, {answer} {}", digests.left(w)));
    }
    if world.running_words() != running {
        return Err(format!("{answer}, running={}", world.running_words()));
    }
    if due == "same" {
        return if *w == before { Ok(()) } else { Err(format!("not the same: {}", digests.left(w))) };
    }
    let found = digests.left(w);
    if found != left_in_full(due) {
        return Err(format!("{answer} {found}"));
    }
    let state: Vec<&str> = due.split_once("state ").unwrap().1.split_whitespace().collect();
    if w.state != state_of(&state) {
        return Err("what stands past a count is not 0".to_string());
    }
    Ok(())
}

/// Runs a file; the calls, cuts and classes that were compared. The other lines only make a world.
fn replay(layer: Layer, name: &str, text: &str) -> usize {
    let mut world = World::blank(Geometry::new(8, 8, 16));
    let mut kept: Option<World> = None;
    // between keep and back, until a cut: each call from the same world
    let mut same = false;
    let mut digests = Digests::default();
    let mut compared = 0;
    for (at, line) in text.lines().enumerate() {
        let line = line.split('#').next().unwrap().trim();
        if line.is_empty() {
            continue;
        }
        let (call, said) = line.split_once(" = ").map_or((line, ""), |(c, s)| (c, s.trim()));
        let words: Vec<&str> = call.split_whitespace().collect();
        let n = |i: usize| words[i].parse::<usize>().expect("a number");
        let w = &mut world.store;
        // nothing is found of a line that only makes a world
        let mut found = None;
        match words[0] {
            "blank" => world = World::blank(geometry_of(&words[1..])),
            "keep" => (kept, same) = (Some(world.clone()), true),
            "back" => (world, same) = (kept.take().expect("a world that was kept"), false),
            "state" => w.state = state_of(&words[1..]),
            "map" => w.map[n(1)] = number(words[2]),
            "byte" => w.array[n(1)] = number(words[2]),
            "page" => {
                let made = spare(number(words[3]), number(words[4]), number(words[5]), number(words[6]), number(words[7]), number(words[8]));
                put(&mut w.array, n(1), &whole_page(&data_of(words[2]), &made));
            }
            "raw" => {
                for i in 0..PAGE {
                    w.array[n(1) * PAGE + i] = u8::from_str_radix(&words[2][2 * i..2 * i + 2], 16).unwrap();
                }
            }
            "dark" => {
                let value = |i: usize| words[i].split_once('=').unwrap().1;
                w.map.fill(number(value(1)));
                w.hold.fill(number(value(2)));
                w.state = common::lost_state(&mut common::Rng::new(at as u64));
                (world.running, same) = (Vec::new(), false);
            }
            "cut" => {
                let parts: Vec<&[&str]> = words[1..].split(|x| *x == "/").collect();
                let cut = world.cut(layer, &parts);
                let array = digests.of_array(&world.store.array);
                found = Some(cut.and_then(|()| agree(format!("array={array:016x}"), said)));
                same = false;
            }
            "class" => {
                let class = layer.class(&w.array[n(1) * PAGE..(n(1) + 1) * PAGE]).expect("a page");
                found = Some(agree(class_words(class), said));
            }
            "torn" => found = Some(agree(layer.torn(w).expect("a state").to_string(), said)),
            _ if same => found = Some(call_line(layer, &mut digests, &mut world.clone(), &words, said)),
            _ => found = Some(call_line(layer, &mut digests, &mut world, &words, said)),
        }
        match found {
            None => assert!(said.is_empty(), "{name}:{}: a line that compares nothing", at + 1),
            Some(Ok(())) => compared += 1,
            Some(Err(got)) => panic!("{layer:?}, {name}:{}: {call}\n  said {said}\n  got  {got}", at + 1),
        }
    }
    compared
}

/// The name and the text of every trace, and what counts pins.
fn traces() -> (Vec<(String, String)>, String) {
    let folder = PathBuf::from(env!("CARGO_MANIFEST_DIR")).join("tests/traces");
    let read = |path: &PathBuf| std::fs::read_to_string(path).unwrap();
    let mut files: Vec<PathBuf> = std::fs::read_dir(&folder).unwrap().map(|f| f.unwrap().path()).collect();
    files.retain(|p| p.extension().is_some_and(|x| x == "txt"));
    files.sort();
    let named = |p: &PathBuf| (p.file_name().unwrap().to_string_lossy().into_owned(), read(p));
    (files.iter().map(named).collect(), read(&folder.join("counts")))
}

/// A line for each trace: its name and the steps that were compared.
fn counted(layer: Layer, traces: &[(String, String)]) -> String {
    traces.iter().map(|(name, text)| format!("{name} {}\n", replay(layer, name, text))).collect()
}

#[test]
fn traces_replay() {
    let (traces, counts) = traces();
    for layer in LAYERS {
        let found = counted(layer, &traces);
        assert_eq!(found, counts, "{layer:?}: other steps were compared than host/tests/traces/counts says");
        let steps: usize = found.lines().map(|l| number::<usize>(l.split_once(' ').unwrap().1)).sum();
        say(&format!("vectors, {layer:?}: {steps} calls, cuts and classes of {} files agree", traces.len()));
        assert!(traces.len() > 20 && steps > 4000, "{steps} steps of {} traces", traces.len());
    }
}

/// A trace without its last step, one without any, one that is gone and one that nobody counted: the counts are others.
#[test]
fn a_trace_that_is_cut_short_is_noticed() {
    let (traces, counts) = traces();
    let at = traces.iter().position(|(name, _)| name == "session-11.txt").expect("a trace");
    let pinned = |traces: &[(String, String)]| counted(Layer::Plain, traces);
    let line = pinned(&traces[at..=at]);
    assert!(counts.lines().any(|l| l == line.trim_end()), "{line} is not in counts");
    let with = |text: &str| pinned(&[(traces[at].0.clone(), text.to_string())]);
    let last = traces[at].1.trim_end().rfind('\n').expect("a last line");
    assert!(traces[at].1[last..].contains(" = "), "the last line is no step");
    assert_ne!(with(&traces[at].1[..last]), line);
    assert_ne!(with(""), line);
    assert_ne!(with("# nothing\n"), line);
    assert_ne!(pinned(&[]), line);
    assert_ne!(pinned(&[traces[at].clone(), ("more.txt".into(), "blank 8 8 16\n".into())]), line);
}

#[test]
fn a_state_of_another_length_is_a_bad_frame() {
    let g = Geometry::new(8, 8, 16);
    let calls = [
        "format 8 8 16",
        "recover 8 8 16",
        "begin 5",
        "write 5 0 1",
        "drop 5 0",
        "lone 0 1",
        "commit 5",
        "abort 5",
        "read 0",
        "checkpoint",
        "reclaim",
    ];
    for layer in LAYERS {
        let mut live = formatted(g);
        assert_eq!(layer.call(&mut live, &call_of(&["lone", "0", "1"])), 0);
        assert_eq!(layer.read(&live, 0), Ok(&data_of("1")[..]));
        for n in [0, 1, STATE - 1, STATE + 1] {
            let mut w = live.clone();
            w.state.resize(n, 0);
            let before = w.clone();
            for call in calls {
                let words: Vec<&str> = call.split_whitespace().collect();
                assert_eq!(layer.call(&mut w, &call_of(&words)), 1, "{layer:?}: {call} with {n} bytes");
                assert!(w == before, "{layer:?}: {call} with {n} bytes changed something");
            }
            assert_eq!(layer.read(&w, 0), Err(1));
        }
    }
}
