//! What a trace says behind `=`: digests, states as words, and whether a call or a cut agrees with it.
use crate::pages::Op;
use crate::world::World;
use bokuhira::{Answer, Class, Geometry, Kind, Place, Plane, Refusal, State, Store, Work, Zones, PAGE};
use std::collections::HashMap;

/// 64-bit FNV-1a.
fn fnv(bytes: &[u8]) -> u64 {
    bytes.iter().fold(0xcbf29ce484222325, |h, b| (h ^ *b as u64).wrapping_mul(0x100000001b3))
}

pub fn digest(bytes: &[u8]) -> String {
    format!("{:016x}", fnv(bytes))
}

pub fn array_digest(array: &[u8]) -> String {
    digest(&array.chunks(PAGE).flat_map(|p| fnv(p).to_be_bytes()).collect::<Vec<u8>>())
}

/// What a call left, as a trace says it.
fn left(store: &Store) -> String {
    let map: Vec<u8> = store.map.iter().flat_map(|x| x.to_le_bytes()).collect();
    let state = State::decode(&store.state).map_or("-".into(), |s| state_words(&s));
    format!("array={} map={} hold={} state {state}", array_digest(&store.array), digest(&map), digest(&store.hold))
}

const KINDS: [(&str, Kind); 4] = [("idle", Kind::Idle), ("format", Kind::Format), ("checkpoint", Kind::Checkpoint), ("reclaim", Kind::Reclaim)];

const PLANES: [(&str, Plane); 3] = [("neither", Plane::Neither), ("even", Plane::Even), ("odd", Plane::Odd)];

pub fn kind_word(kind: Kind) -> &'static str {
    KINDS[kind as usize].0
}

pub fn commas<T: ToString>(list: &[T]) -> String {
    list.iter().map(T::to_string).collect::<Vec<_>>().join(",")
}

/// A state in words; one plane and neither last plane are left out.
fn state_words(s: &State) -> String {
    let places: Vec<String> = s
        .places
        .iter()
        .map(|p| {
            if p.is_free() {
                return "-".into();
            }
            let written: Vec<String> = p.lpns.iter().zip(&p.drops).map(|(l, drop)| format!("{}{l}", if *drop { "~" } else { "" })).collect();
            let programmed: Vec<String> = written.iter().zip(&p.ppns).map(|(l, k)| format!("{l}@{k}")).collect();
            format!("{}[{}]{}", p.id, programmed.join(","), written.last().map_or("", String::as_str))
        })
        .collect();
    let (g, z) = (s.geometry, &s.zones);
    let planes = if g.planes == 1 { String::new() } else { format!(" {}", g.planes) };
    let last = if s.last == Plane::Neither { String::new() } else { format!(" last={}", PLANES[s.last as usize].0) };
    format!(
        "{} {} {}{planes} available={} unavailable={} free={} pointer={} version={} checkpoint={} front={}:{} work={}:{}{last} places={}",
        g.blocks,
        g.pages,
        g.logical,
        commas(&z.available),
        commas(&z.unavailable),
        commas(&z.free),
        z.pointer,
        s.version,
        s.checkpoint,
        s.front,
        s.first,
        kind_word(s.work.kind),
        s.work.stride,
        places.join(" ")
    )
}

/// What a call left, with one plane and neither last plane left out.
fn in_brief(said: &str) -> String {
    let Some((before, state)) = said.split_once("state ") else { return said.into() };
    let words = state.split(' ').enumerate().filter(|(i, w)| (*i, *w) != (3, "1") && *w != "last=neither").map(|(_, w)| w);
    format!("{before}state {}", words.collect::<Vec<_>>().join(" "))
}

/// The state that these words are.
pub fn state_of(words: &[&str]) -> Option<State> {
    let n = |i: usize| words.get(i)?.parse::<u16>().ok();
    let planes = if words.get(3)?.contains('=') { 1 } else { n(3)? };
    let fields: HashMap<&str, &str> = words.get(3..)?.iter().filter_map(|w| w.split_once('=')).collect();
    let list = |name: &str| -> Option<Vec<u8>> { fields.get(name)?.split(',').filter(|x| !x.is_empty()).map(|x| x.parse().ok()).collect() };
    let (front, first) = fields.get("front")?.split_once(':')?;
    let (kind, stride) = fields.get("work")?.split_once(':')?;
    let last = fields.get("last").copied().unwrap_or("neither");
    let from = words.iter().position(|w| w.starts_with("places="))?;
    let mut places = Vec::new();
    for i in 0..8 {
        places.push(place_of(words.get(from + i)?.trim_start_matches("places="))?);
    }
    Some(State {
        geometry: Geometry::new(n(0)?, n(1)?, n(2)?).with_planes(planes),
        zones: Zones {
            available: list("available")?,
            unavailable: list("unavailable")?,
            free: list("free")?,
            pointer: fields.get("pointer")?.parse().ok()?,
        },
        version: fields.get("version")?.parse().ok()?,
        checkpoint: fields.get("checkpoint")?.parse().ok()?,
        front: front.parse().ok()?,
        first: first.parse().ok()?,
        work: Work { kind: KINDS.iter().find(|(k, _)| *k == kind)?.1, stride: stride.parse().ok()? },
        last: PLANES.iter().find(|(p, _)| *p == last)?.1,
        places,
    })
}

fn place_of(word: &str) -> Option<Place> {
    if word == "-" {
        return Some(Place::default());
    }
    let (id, rest) = word.split_once('[')?;
    let (programmed, held) = rest.split_once(']')?;
    let mut place = Place { id: id.parse().ok()?, ..Place::default() };
    let write = |place: &mut Place, lpn: &str| {
        place.drops.push(lpn.starts_with('~'));
        place.lpns.push(lpn.strip_prefix('~').unwrap_or(lpn).parse().ok()?);
        Some(())
    };
    for one in programmed.split(',').filter(|x| !x.is_empty()) {
        let (lpn, ppn) = one.split_once('@')?;
        write(&mut place, lpn)?;
        place.ppns.push(ppn.parse().ok()?);
    }
    if !held.is_empty() {
        write(&mut place, held)?;
    }
    Some(place)
}

/// A class as a trace says it.
pub fn class_of(class: Class) -> String {
    match class {
        Class::Torn(by) => format!("torn {by}"),
        other => other.word().into(),
    }
}

/// Whether what is said is all that a trace says of a step, and not the answer alone.
pub fn says_all(said: &str) -> bool {
    said.contains([' ', '='])
}

/// Whether a call's answer and what it left agree with what is said; an error says what was found. A lone number is the answer alone.
pub fn agrees(said: &str, answer: Answer, op: Op, before: &Store, world: &World) -> Result<(), String> {
    let mut words = said.splitn(2, ' ');
    let number = answer.number().to_string();
    if words.next() != Some(&number) {
        return Err(format!("expected {said}, and the answer is {number}"));
    }
    let Some(rest) = words.next() else { return Ok(()) };
    let (rest, said_running) = rest.split_once(" running=").unwrap_or((rest, ""));
    let (said_op, said_left) = match rest.strip_prefix('(').and_then(|r| r.split_once(") ")) {
        Some((op, left)) => (Some(op), left),
        None => (None, rest),
    };
    if let Some(said_op) = said_op {
        let same = match (said_op.split_once(' '), op) {
            (None, Op::Nothing) => said_op == "-",
            (Some(("program", k)), Op::Program(at)) => k == at.to_string(),
            (Some(("erase", b)), Op::Erase(at)) => b == at.to_string(),
            // a block that was erased before shows no change
            (Some(("erase", b)), Op::Nothing) => {
                b.parse().is_ok_and(|b: usize| world.block(b).is_some_and(|r| world.pages.list[r].iter().all(|p| p.class == Class::Erased)))
            }
            _ => false,
        };
        if !same {
            return Err(format!("expected ({said_op}), and the call did {op:?}"));
        }
    }
    let running = running_words(world);
    if running != said_running {
        return Err(format!("expected running={said_running}, found running={running}"));
    }
    let found = if said_left == "same" && world.store == *before { "same".into() } else { left(&world.store) };
    if found == in_brief(said_left) {
        Ok(())
    } else {
        Err(format!("expected {said_left}\n  found {found}"))
    }
}

/// The pages that run, by page number.
fn running_words(world: &World) -> String {
    world.running.iter().map(|r| format!("{}@{}", r.id, r.page)).collect::<Vec<_>>().join(",")
}

/// The same for what was found without a call, a class or how many pages are torn.
pub fn found_agrees(expected: Option<&str>, found: String) -> Result<(), String> {
    match expected {
        Some(expected) if expected != found => Err(format!("expected {expected}, found {found}")),
        _ => Ok(()),
    }
}

/// The same for a read: its answer, and the digest of what it handed back.
pub fn read_agrees(expected: &str, read: Result<&[u8], Refusal>) -> Result<(), String> {
    let found = match read {
        Ok(data) => format!("0 {}", digest(data)),
        Err(r) => format!("{} -", r.0),
    };
    if found == expected || found.split(' ').next() == Some(expected) {
        Ok(())
    } else {
        Err(format!("expected {expected}, found {found}"))
    }
}
