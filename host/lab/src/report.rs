//! What the program report prints for a flash, and how that compares with what it printed elsewhere.
use crate::{trace, world::World};
use bokuhira::{Answer, Call};

/// What the program report prints: a recovery of this array, on a copy. It takes every flash for one of one plane.
pub fn report(world: &World) -> String {
    let g = world.geometry.with_planes(1);
    let mut copy = World::import(g, world.store.array.clone());
    let (answer, _) = copy.call(&Call::Recover(g));
    match (copy.state(), copy.torn_count()) {
        (Some(s), Some(torn)) if answer == Answer::Done => {
            let z = &s.zones;
            let (a, u, f) = (trace::commas(&z.available), trace::commas(&z.unavailable), trace::commas(&z.free));
            format!(
                "answer=0\ncheckpoint={}\nversion={}\navailable={a}\nunavailable={u}\nfree={f}\nmapped={}\ntorn={torn}\n",
                s.checkpoint,
                s.version,
                copy.mapped_count()
            )
        }
        _ => format!("answer={}\n", answer.number()),
    }
}

/// Line by line: what report printed elsewhere beside what this flash gives. Lines that only one of them has are shown too.
pub fn compare(here: &str, there: &str, file: &str) -> String {
    let (here, there): (Vec<&str>, Vec<&str>) = (here.lines().collect(), there.lines().collect());
    let mut text = String::new();
    for i in 0..here.len().max(there.len()) {
        let (h, t) = (here.get(i).unwrap_or(&"-"), there.get(i).unwrap_or(&"-"));
        if h != t {
            text += &format!("  here {h}, in {file} {t}\n");
        }
    }
    if text.is_empty() {
        format!("report: the same as {file}\n")
    } else {
        format!("report: not the same as {file}\n{text}")
    }
}
