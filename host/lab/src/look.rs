//! How each page looks in a picture: its kind (colour, pattern and letter), the edges of its transaction's outline, and its words.
use crate::{
    data::data_words,
    pages::Page,
    view::{Fate, Hold, View, Zone},
    words::{plural, running_words, torn_words},
    world::World,
};
use bokuhira::{Call, Class, Refusal};

/// The kinds of cells, in the order of `KINDS`.
#[derive(Clone, Copy, PartialEq, Eq, Hash, Debug)]
pub enum Look {
    Erased,
    Active,
    CommittedHolds,
    Committed,
    DeadHolds,
    Dead,
    Abandoned,
    Torn,
    Bad,
    NewestMap,
    NewestZone,
    OlderMap,
    OlderZone,
    PartMap,
    PartZone,
    BadHolds,
    Unknown,
    OutsideHolds,
    Outside,
    CommittedMaybe,
    DeadMaybe,
    OutsideMaybe,
    UncommittedMaybe,
    Refused,
    FrontOther,
    Uncommitted,
    TornHolds,
    ErasedHolds,
    HoldsAnother,
    CommittedDrop,
    DeadDrop,
    Running,
}

/// A kind of cell: its class in the style sheet, its letter, and its words in the legend.
pub struct Kind {
    pub look: Look,
    pub css: &'static str,
    pub letter: &'static str,
    pub words: &'static str,
}

const fn kind(look: Look, css: &'static str, letter: &'static str, words: &'static str) -> Kind {
    Kind { look, css, letter, words }
}

pub const KINDS: [Kind; 32] = [
    kind(Look::Erased, "e", "", "erased"),
    kind(Look::Active, "a", "A", "active: its change is open"),
    kind(Look::CommittedHolds, "c h", "C", "committed, and holds"),
    kind(Look::Committed, "c", "C", "committed, does not hold"),
    kind(Look::DeadHolds, "d h", "D", "dead (settled by a checkpoint), and holds"),
    kind(Look::Dead, "d", "D", "dead, does not hold"),
    kind(Look::Abandoned, "x", "X", "abandoned: aborted or lost in a cut"),
    kind(Look::Torn, "t", "T", "torn: belongs to nobody"),
    kind(Look::Bad, "b", "!", "bad page: recover refuses"),
    kind(Look::NewestMap, "n", "M", "map page of the newest checkpoint"),
    kind(Look::NewestZone, "n", "Z", "zone page of the newest checkpoint"),
    kind(Look::OlderMap, "o", "M", "map page of an older checkpoint"),
    kind(Look::OlderZone, "o", "Z", "zone page of an older checkpoint"),
    kind(Look::PartMap, "p", "M", "map page, checkpoint not complete"),
    kind(Look::PartZone, "p", "Z", "zone page, checkpoint not complete"),
    kind(Look::BadHolds, "b h", "!", "bad page, and yet holds"),
    kind(Look::Unknown, "u", "?", "whole; no zone is known"),
    kind(Look::OutsideHolds, "d h", "O", "outside the scan, and holds"),
    kind(Look::Outside, "d", "O", "outside the scan, does not hold"),
    kind(Look::CommittedMaybe, "u", "C", "committed; not known whether it holds"),
    kind(Look::DeadMaybe, "u", "D", "dead; not known whether it holds"),
    kind(Look::OutsideMaybe, "u", "O", "outside the scan; not known whether it holds"),
    kind(Look::UncommittedMaybe, "u", "X", "not committed in the scan; not known whether it holds"),
    kind(Look::Refused, "b", "!", "in the newest checkpoint: recover refuses it"),
    kind(Look::FrontOther, "p", "?", "in the front, of no checkpoint"),
    kind(Look::Uncommitted, "u", "X", "not committed in the scan: dead or abandoned; does not hold"),
    kind(Look::TornHolds, "t h", "T", "torn, and yet holds"),
    kind(Look::ErasedHolds, "e h", "E", "erased, and yet holds"),
    kind(Look::HoldsAnother, "b h", "L", "holds another logical page than its LPN says, or is a drop and yet holds"),
    kind(Look::CommittedDrop, "c", "U", "committed drop: it unmaps its logical page"),
    kind(Look::DeadDrop, "d", "U", "dead drop: it unmapped its logical page"),
    kind(Look::Running, "w", "R", "runs: its program may not have ended"),
];

/// The kind of a page.
pub fn look_of(page: &Page, fate: Fate, holds: Hold) -> Look {
    let of_two = |map: Look, zone: Look| if page.kind == 2 { zone } else { map };
    let by_hold = |holding: Look, not: Look, maybe: Look| match holds {
        Hold::Unknown => maybe,
        Hold::No => not,
        Hold::Yes | Hold::Yet(_) => holding,
    };
    match (page.class, fate, holds) {
        (Class::Erased, _, Hold::Yet(_)) => Look::ErasedHolds,
        (Class::Erased, ..) => Look::Erased,
        (Class::Torn(_), _, Hold::Yet(_)) => Look::TornHolds,
        (Class::Torn(_), ..) => Look::Torn,
        (_, Fate::Bad, _) => by_hold(Look::BadHolds, Look::Bad, Look::Bad),
        (_, _, Hold::Yet(_)) => Look::HoldsAnother,
        (_, Fate::Active, _) => Look::Active,
        (_, Fate::Committed, _) if page.is_drop() => Look::CommittedDrop,
        (_, Fate::Dead, _) if page.is_drop() => Look::DeadDrop,
        (_, Fate::Committed, _) => by_hold(Look::CommittedHolds, Look::Committed, Look::CommittedMaybe),
        (_, Fate::Dead, _) => by_hold(Look::DeadHolds, Look::Dead, Look::DeadMaybe),
        (_, Fate::Outside, _) => by_hold(Look::OutsideHolds, Look::Outside, Look::OutsideMaybe),
        (_, Fate::Abandoned, _) => Look::Abandoned,
        (_, Fate::Uncommitted, Hold::Unknown) => Look::UncommittedMaybe,
        (_, Fate::Uncommitted, _) => Look::Uncommitted,
        (_, Fate::Newest, _) => of_two(Look::NewestMap, Look::NewestZone),
        (_, Fate::Older, _) => of_two(Look::OlderMap, Look::OlderZone),
        (_, Fate::Part, _) if page.kind == 1 || page.kind == 2 => of_two(Look::PartMap, Look::PartZone),
        (_, Fate::Part, _) => Look::FrontOther,
        (_, Fate::Refused, _) => Look::Refused,
        (_, Fate::Unknown | Fate::Nobody, _) => Look::Unknown,
    }
}

/// Zones in a picture: class in the style sheet, and two letters where there is no room for the word.
pub fn zone_css(zone: Zone) -> (&'static str, &'static str) {
    match zone {
        Zone::Front => ("zf", "FT"),
        Zone::Available => ("za", "av"),
        Zone::Unavailable => ("zu", "un"),
        Zone::Checkpointed => ("zc", "ck"),
        Zone::Free => ("ze", "fr"),
        Zone::Unknown => ("zq", "?"),
    }
}

/// The edges of the outline around the pages of one transaction or checkpoint: bit 0 the upper, bit 1 the lower, bits 2 and 3 how
/// strong the line is (1 thin, 2 thick, 3 broken); 0 is no outline.
pub fn edges(view: &View, pages: &[Page], k: usize) -> u8 {
    let group = |k: usize| group(view, pages, k);
    let here = group(k);
    if here == Group::None {
        return 0;
    }
    let per_block = view.geometry.pages as usize;
    let upper = k.is_multiple_of(per_block) || group(k - 1) != here || here == Group::Lone;
    let lower = k % per_block == per_block - 1 || group(k + 1) != here || here == Group::Lone;
    let line = match (here, view.fates[k]) {
        (Group::Lone, _) => 1,
        (_, Fate::Active) => 3,
        _ => 2,
    };
    upper as u8 | (lower as u8) << 1 | line << 2
}

/// What is outlined together.
#[derive(PartialEq, Eq, Clone, Copy)]
enum Group {
    None,
    Lone,
    Change(u32),
    Checkpoint(usize),
}

fn group(view: &View, pages: &[Page], k: usize) -> Group {
    let p = &pages[k];
    match p.is_whole() {
        false => Group::None,
        true if view.zone(k) == Zone::Front => view
            .checkpoints
            .iter()
            .find(|c| (c.first..=c.first + view.geometry.map_pages()).contains(&k))
            .map_or(Group::None, |c| Group::Checkpoint(c.first)),
        true if p.id == 0 => Group::Lone,
        true => Group::Change(p.id),
    }
}

/// A page in words: short ones for its cell, one long line for whoever points at it, and its identifier.
#[derive(Clone, PartialEq, Eq, Hash, Default)]
pub struct Words {
    /// What it is, with its number.
    pub one: String,
    /// Whose it is, and which write of it; of a torn one, which is nobody's, by how much it is torn.
    pub two: String,
    /// A mark's count of pages.
    pub mark: String,
    pub version: String,
    pub tell: String,
    pub id: u32,
}

impl Words {
    /// The number that `one` ends with.
    pub fn number(&self) -> &str {
        self.one.split(' ').nth(1).unwrap_or("")
    }
}

pub fn words(world: &World, k: usize) -> Words {
    let p = &world.pages.list[k];
    match (p.class, p.kind) {
        (Class::Erased, _) => Words::default(),
        (Class::Torn(by), _) => Words { one: "torn".into(), two: format!("by {by}"), tell: torn_words(p), ..Words::default() },
        (Class::Whole, kind) => {
            let lpn = format!("{} {}", if p.is_drop() { "drop" } else { "LPN" }, p.lpn);
            let (version, none) = (format!("v{}", p.ver), String::new);
            let number = |sign: &str| if p.reserved == 0 { none() } else { format!("{sign}{}", p.reserved) };
            let (one, two, mark, version) = match (kind, p.id, p.cnt) {
                (1, ..) => (format!("map {}", p.lpn), format!("checkpt {}", p.ver), none(), none()),
                (2, ..) => ("zones".into(), format!("checkpt {}", p.ver), none(), none()),
                (_, 0, _) => (lpn, "lone".into(), none(), version),
                (_, id, 0) => (lpn, format!("id {id}{}", number(" #")), none(), none()),
                (_, id, n) => (lpn, format!("id {id}{}", number(" #")), format!("▲{n}"), version),
            };
            let kind_words = format!("{} {}{}", p.kind, p.kind_word(), number(", Reserved "));
            let fields = format!("LPN {}, TxCnt {}, TxID {}, TxVer {}, Kind {kind_words}", p.lpn, p.cnt, p.id, p.ver);
            let data = if kind == 0 { format!(", data {}", data_words(world.data(k))) } else { String::new() };
            Words { one, two, mark, version, tell: format!("whole; {fields}{data}"), id: if p.is_of_change() { p.id } else { 0 } }
        }
    }
}

/// The state in one line; without one, what a recovery finds, or why it is refused.
pub fn state_line(world: &World) -> String {
    let Some(s) = world.state() else {
        return match world.recovered() {
            Ok(_) => "the state is lost; shown as a recovery will find it".into(),
            Err(why) => why.sentence(),
        };
    };
    let open: Vec<String> = s.places.iter().filter(|p| !p.is_free()).map(|p| format!("{} ({} written)", p.id, p.lpns.len())).collect();
    let open = if open.is_empty() { "no change open".into() } else { format!("open changes: {}", open.join(", ")) };
    let work = match crate::trace::kind_word(s.work.kind) {
        "idle" => String::new(),
        work => format!("; {work} under way"),
    };
    let bad = world.reason(&Call::Read(0), Refusal(1)).map_or(String::new(), |why| format!("; until a recover, calls answer 1 bad frame: {why}"));
    let mapped = plural(world.mapped_count(), "logical page");
    let running = running_words(world).map_or(String::new(), |words| format!("; {words}"));
    format!("last version {}, checkpoint {}, {mapped} mapped; {open}{work}{running}{bad}", s.version, s.checkpoint)
}

#[cfg(test)]
mod tests {
    use super::*;

    #[test]
    fn every_look_finds_its_own_kind() {
        assert!(KINDS.iter().enumerate().all(|(i, kind)| kind.look as usize == i));
        assert_eq!(Look::Running as usize, KINDS.len() - 1);
    }
}
