//! Why a call answers 1, bad frame: which length, bound, entry, place or stride. As `why`, a diagnosis beside the proved answer.
use crate::{
    pages::Page,
    ranges,
    words::{class_words, page_name, plural},
};
use bokuhira::{Call, Class, Geometry, Kind, State, Store, CHANGE_PAGES, PAGE, STATE};

/// Where a state's bytes count the blocks of each zone and the pages of each place, and where the work under way and the last plane stand:
/// offsets of include/bokuhira.h.
const COUNTS: [usize; 3] = [11, 138, 265];
const WORK: usize = 277;
const STRIDE: usize = 278;
const LAST: usize = 280;
const PLACES: usize = 281;
const PLACE: usize = 325;
const PLACE_COUNT: usize = 4;
const PLACE_DROPS: usize = 261;

/// Why that call answers 1; none where it does not. To format and recover, bytes that are no state count as a fresh one.
pub fn why(store: &Store, call: &Call) -> Option<String> {
    if store.state.len() != STATE {
        return Some(format!("a state of {} bytes: {STATE} are expected", store.state.len()));
    }
    match (call, State::decode(&store.state)) {
        (Call::Recover(g), _) => ranges::lent(*g, store),
        (Call::Format(g), state) => ranges::lent(*g, store).or_else(|| own_format(*g, store, &state?)),
        (_, Some(state)) => frame(store, &state),
        (_, None) => Some(format!("bytes that are no state: {}", no_state(store))),
    }
}

/// Why bytes encode no state: a page of a place that is neither a write nor a drop, the last plane, or the work under way.
fn no_state(store: &Store) -> String {
    let drops = |i: usize| &store.state[PLACES + PLACE * i + PLACE_DROPS..PLACES + PLACE * (i + 1)];
    let odd = (0..8).find_map(|i| drops(i).iter().position(|d| *d > 1).map(|j| (i, j)));
    match odd {
        Some((i, j)) => format!("place {i}: {} for its page {j}: 0, a write, or 1, a drop, is expected", drops(i)[j]),
        None if store.state[LAST] > 2 => format!("last plane {}: 0, neither, 1, even, or 2, odd, is expected", store.state[LAST]),
        None => format!("work of kind {} with stride number {}", store.state[WORK], stride(store)),
    }
}

fn stride(store: &Store) -> u16 {
    u16::from_le_bytes([store.state[STRIDE], store.state[STRIDE + 1]])
}

/// What every call but format and recover looks at.
fn frame(store: &Store, state: &State) -> Option<String> {
    let g = state.geometry;
    let (z, counts) = (&state.zones, COUNTS.map(|at| store.state[at] as usize));
    ranges::lent(g, store)
        .or_else(|| ranges::map(g, &store.map).map(|(i, words)| format!("map entry {i}: {words}")))
        .or_else(|| ranges::zones(g, counts, [&z.available, &z.unavailable, &z.free], z.pointer).map(|words| format!("zone lists: {words}")))
        .or_else(|| (0..8).find_map(|i| place(g, store, state, i).map(|words| format!("place {i}: {words}"))))
        .or_else(|| (state.front > 1).then(|| format!("front block {}: 0 or 1 is expected", state.front)))
        .or_else(|| work(store, state))
}

fn place(g: Geometry, store: &Store, state: &State, i: usize) -> Option<String> {
    let (p, count) = (&state.places[i], store.state[PLACES + PLACE * i + PLACE_COUNT]);
    let shared = || (i + 1..8).find(|j| p.id != 0 && state.places[*j].id == p.id);
    let most = if g.planes == 2 { CHANGE_PAGES } else { 64 };
    match p.id {
        _ if count as usize > most => Some(format!("{count} pages: at most {most} are allowed")),
        0 if count > 0 => Some(format!("{count} pages without an identifier")),
        0xFFFF_FFFF => Some(format!("identifier {}", p.id)),
        _ => p.lpns.iter().find(|lpn| **lpn >= g.logical).map(|lpn| format!("LPN {lpn}, with {}", plural(g.logical as usize, "logical page"))),
    }
    .or_else(|| p.ppns.iter().find_map(|k| ranges::data_page(g, *k)))
    .or_else(|| shared().map(|j| format!("identifier {}, which place {j} has too", p.id)))
}

/// Front place, stride number, and the next front page of the work under way.
fn work(store: &Store, state: &State) -> Option<String> {
    let (g, first, m) = (state.geometry, state.first as usize, state.geometry.map_pages());
    let k = state.work.stride as usize;
    if state.work.kind == Kind::Checkpoint {
        return match k {
            _ if k > m => Some(format!("stride number {k} of a checkpoint: 0 to {m} are allowed")),
            _ if first + m >= g.pages as usize => Some(format!("first page {first} of a checkpoint of {} pages: the block has {}", m + 1, g.pages)),
            0 if first > 0 => Some(format!("stride number 0 of a checkpoint with first page {first}: 0 comes after an erase, with first page 0")),
            _ => next_page(g, store, state.front as usize * g.pages as usize + first + k),
        };
    }
    if first > 0 {
        return Some(format!("first page {first} of a checkpoint, and none is under way: 0 is expected"));
    }
    own_format(g, store, state)
}

/// The work under way, where it is a format of that geometry.
fn own_format(g: Geometry, store: &Store, state: &State) -> Option<String> {
    let (k, blocks) = (state.work.stride as usize, g.blocks as usize);
    let most = blocks + g.map_pages();
    match state.work.kind {
        Kind::Format if state.geometry == g && !(1..=most).contains(&k) => Some(format!("stride number {k} of a format: 1 to {most} are allowed")),
        Kind::Format if state.geometry == g && k >= blocks => next_page(g, store, k - blocks),
        _ => None,
    }
}

/// The next front page must be erased.
fn next_page(g: Geometry, store: &Store, k: usize) -> Option<String> {
    let page = Page::read(&store.array[k * PAGE..(k + 1) * PAGE]);
    (page.class != Class::Erased).then(|| format!("the next front page, {}, is {}", page_name(g, k), class_words(page.class)))
}

#[cfg(test)]
mod tests {
    use super::*;
    use crate::lot::{all_met, form, Lot};
    use bokuhira::{Answer, Refusal};
    use std::collections::HashSet;

    #[test]
    fn a_reason_is_found_exactly_when_the_proved_call_answers_1() {
        let mut met = HashSet::new();
        let (mut refused, mut passed) = (0, 0);
        for seed in 0..6000 {
            let mut lot = Lot(seed);
            let g = lot.geometry();
            let mut store = lot.lived(g);
            for _ in 0..lot.below(3) {
                lot.spoil_frame(g, &mut store);
            }
            if lot.below(4) == 0 {
                lot.spoil_array(g, &mut store);
            }
            let data = vec![0; 512];
            let calls = [
                Call::Begin(7),
                Call::Write { id: 1, lpn: 0, data: data.clone() },
                Call::Drop { id: 1, lpn: 0 },
                Call::Lone { lpn: 0, data },
                Call::Commit(1),
                Call::Abort(1),
                Call::Read(0),
                Call::Checkpoint,
                Call::Reclaim,
                Call::Format(g),
                Call::Recover(g),
            ];
            for call in calls {
                let why = why(&store, &call);
                let bad = store.clone().call(&call) == Answer::Refused(Refusal(1));
                assert_eq!(why.is_some(), bad, "seed {seed}, {call:?}: {why:?}");
                (refused, passed) = (refused + bad as usize, passed + !bad as usize);
                met.extend(why.map(|w| form(&w)));
            }
        }
        assert!(refused > 5000 && passed > 5000, "{refused} refused, {passed} passed");
        all_met(
            &met,
            &[
                "a state of # bytes",
                "bytes that are no state: work of kind # with stride number #",
                "bytes that are no state: place #: # for its page #",
                "bytes that are no state: last plane #",
                "# planes: # to # are allowed",
                "# blocks: # to # are allowed",
                "an array of # bytes",
                "a map of # entries",
                "a hold of # bytes",
                "map entry #: page # is in no data block",
                "map entry #: page # stands in entry # already",
                "zone lists: # available, # unavailable and # free blocks",
                "zone lists: # available blocks: at most three",
                "zone lists: available block #",
                "zone lists: unavailable block # is listed twice",
                "zone lists: free blocks",
                "zone lists: pointer #",
                "place #: # pages: at most # are allowed",
                "place #: # pages without an identifier",
                "place #: identifier #",
                "place #: LPN #, with # logical pages",
                "place #: page # is in no data block",
                "place #: identifier #, which place # has too",
                "front block #: # or # is expected",
                "stride number # of a checkpoint: # to # are allowed",
                "first page # of a checkpoint of # pages: the block has #",
                "stride number # of a checkpoint with first page #",
                "first page # of a checkpoint, and none is under way",
                "stride number # of a format: # to # are allowed",
                "the next front page, page # (block #, page #), is whole",
            ],
        );
    }
}
