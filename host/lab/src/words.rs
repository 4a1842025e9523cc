//! What the lab's lines are made of: answers, pages, data and operations in words.
use crate::{
    data::data_words,
    pages::{Op, Page},
    world::World,
};
use bokuhira::{Answer, Call, Class, Geometry, Kind, Refusal};

pub fn answer_words(answer: Answer) -> String {
    match answer {
        Answer::Done => "0 done".into(),
        Answer::More => "255 more".into(),
        Answer::Refused(r) => refusal_words(r),
    }
}

/// As in "4 bad page".
pub fn refusal_words(r: Refusal) -> String {
    format!("{} {}", r.0, r.word())
}

/// A page number with its block and its page there.
pub fn page_name(g: Geometry, k: usize) -> String {
    let p = g.pages as usize;
    format!("page {k} (block {}, page {})", k / p, k % p)
}

/// As in "torn by 65327".
pub fn class_words(class: Class) -> String {
    match class {
        Class::Torn(by) => format!("torn by {by}"),
        other => other.word().into(),
    }
}

/// A torn page, as in "torn by 65327: Zeros 65535, counted 208".
pub fn torn_words(p: &Page) -> String {
    format!("{}: Zeros {}, counted {}", class_words(p.class), p.zeros, p.counted())
}

/// A logical page that is written or dropped, as in "LPN 3" or "drop of LPN 3".
pub fn lpn_words(drop: bool, lpn: u16) -> String {
    format!("{}LPN {lpn}", if drop { "drop of " } else { "" })
}

/// The fields of a whole page in words; its write number, which only pages of a change on two planes have, with them.
pub fn page_words(p: &Page) -> String {
    let lpn = lpn_words(p.is_drop(), p.lpn);
    let number = if p.reserved == 0 { String::new() } else { format!(", write number {}", p.reserved) };
    match (p.kind, p.id, p.cnt) {
        (1, ..) => format!("map page {} of checkpoint {}", p.lpn, p.ver),
        (2, ..) => format!("zone page of checkpoint {}", p.ver),
        (4.., ..) => format!("{lpn}, identifier {}, kind {}", p.id, p.kind),
        (_, 0, _) => format!("{lpn}, lone, version {}", p.ver),
        (_, id, 0) => format!("{lpn}, identifier {id}{number}"),
        (_, id, n) => format!("{lpn}, identifier {id}{number}, mark: {}, version {}", plural(n as usize, "page"), p.ver),
    }
}

/// What a call did to the flash.
pub fn op_words(world: &World, op: Op) -> String {
    match op {
        Op::Nothing => String::new(),
        Op::Program(k) => format!("{} programmed: {}", page_name(world.geometry, k), page_words(&world.pages.list[k])),
        Op::Erase(b) => format!("block {b} erased"),
    }
}

/// The line that says what a call answered and did.
pub fn call_line(text: &str, world: &World, call: &Call, answer: Answer, op: Op) -> String {
    let mut parts = vec![format!("{text}: {}", answer_words(answer))];
    match (call, answer) {
        (Call::Read(lpn), Answer::Done) => parts.push(data_words(world.data(world.store.map[*lpn as usize] as usize))),
        (Call::Write { .. } | Call::Drop { .. }, Answer::Done) => parts.push("held".into()),
        (Call::Recover(_), Answer::Done) => {
            if let Some(s) = world.state() {
                parts.push(format!(
                    "checkpoint {}, last version {}, {} mapped",
                    s.checkpoint,
                    s.version,
                    plural(world.mapped_count(), "logical page")
                ));
            }
        }
        (_, Answer::More) if op == Op::Nothing => parts.extend(erased_again(world).map(|b| format!("block {b} erased (it was erased before)"))),
        (_, Answer::Refused(r)) => parts.extend(world.reason(call, r)),
        _ => (),
    }
    let done = op_words(world, op);
    if !done.is_empty() {
        parts.push(done);
    }
    parts.extend(running_words(world));
    parts.join("; ")
}

/// The pages that run, as in "running: 16 24"; none where none does.
pub fn running_words(world: &World) -> Option<String> {
    let pages: Vec<usize> = world.running.iter().map(|r| r.page).collect();
    (!pages.is_empty()).then(|| format!("running: {}", numbers(&pages)))
}

/// The plane of a block, where there are two.
pub fn plane_word(g: Geometry, b: usize) -> Option<&'static str> {
    (g.planes == 2).then_some(if b.is_multiple_of(2) { "even" } else { "odd" })
}

/// The block that the stride of a format or a checkpoint just erased.
fn erased_again(world: &World) -> Option<u16> {
    let s = world.state()?;
    match s.work.kind {
        Kind::Format => s.work.stride.checked_sub(1),
        _ => Some(s.front as u16),
    }
}

/// As in "8 blocks of 8 pages, 16 logical pages"; of other than one plane with their number.
pub fn geometry_words(g: Geometry) -> String {
    let planes = if g.planes == 1 { String::new() } else { format!(", {}", plural(g.planes as usize, "plane")) };
    format!("{} of {}, {}{planes}", plural(g.blocks as usize, "block"), plural(g.pages as usize, "page"), plural(g.logical as usize, "logical page"))
}

/// A number of things: one has no s.
pub fn plural(n: usize, one: &str) -> String {
    format!("{n} {one}{}", if n == 1 { "" } else { "s" })
}

/// Numbers one after the other, or none.
pub fn numbers<T: ToString>(list: &[T]) -> String {
    if list.is_empty() {
        return "none".into();
    }
    list.iter().map(T::to_string).collect::<Vec<_>>().join(" ")
}
