//! The longest change (document 02, point 1; docs/PAPERS.md), on both layers, on one plane and on two: the 41st page goes, the 42nd answers 10.
//! On one plane a change of up to 64 pages, as version 0.1 left it, is recovered in full and can still be committed or aborted.
mod common;

use bokuhira::{Call, Geometry, Place, State, Store, CHANGE_PAGES, DATA, PAGE};
use common::{formatted, lost_state, Layer, Rng, LAYERS};

/// The pages that a place has room for.
const ROOM: usize = 64;

fn page(text: &str) -> Vec<u8> {
    let mut data = text.as_bytes().to_vec();
    data.resize(DATA, 0);
    data
}

fn write(layer: Layer, store: &mut Store, id: u32, lpn: u16, text: &str) -> u8 {
    layer.call(store, &Call::Write { id, lpn, data: page(text) })
}

#[test]
fn the_header_has_the_same_limit() {
    let header = include_str!("../../include/bokuhira.h");
    assert!(header.contains(&format!("#define BOKUHIRA_CHANGE_PAGES {CHANGE_PAGES} ")));
}

/// The two layers, each on one plane and on two.
fn layers_and_planes() -> impl Iterator<Item = (Layer, u16)> {
    LAYERS.into_iter().flat_map(|layer| [(layer, 1), (layer, 2)])
}

/// From a format on, whatever the size of the flash: no further page, and what was written is committed, recovered and read.
#[test]
fn the_41st_page_goes_the_42nd_is_too_long() {
    let sizes = [(8, 32, 64), (11, 64, 320), (20, 8, 90)];
    for ((layer, planes), (blocks, pages, logical)) in layers_and_planes().flat_map(|l| sizes.map(|size| (l, size))) {
        let g = Geometry::new(blocks, pages, logical).with_planes(planes);
        let mut store = formatted(g);
        assert_eq!(layer.call(&mut store, &Call::Begin(5)), 0);
        for n in 0..41 {
            let mut answer = write(layer, &mut store, 5, n, &format!("write {n}"));
            if answer == 12 {
                while layer.call(&mut store, &Call::Checkpoint) == 255 {}
                answer = write(layer, &mut store, 5, n, &format!("write {n}"));
            }
            assert_eq!(answer, 0, "{layer:?}, {g:?}: page {} of the change", n + 1);
        }
        let full = store.clone();
        assert_eq!(write(layer, &mut store, 5, 41, "one more"), 10, "{layer:?}, {g:?}");
        assert_eq!(layer.call(&mut store, &Call::Drop { id: 5, lpn: 41 }), 10, "{layer:?}, {g:?}");
        assert!(store == full, "{layer:?}, {g:?}: a refused write or drop changed something");
        assert_eq!(layer.call(&mut store, &Call::Commit(5)), 0);
        let mut dark = Store { array: store.array.clone(), ..Store::blank(g) };
        assert_eq!(layer.call(&mut dark, &Call::Recover(g)), 0);
        for n in 0..41 {
            assert_eq!(layer.read(&dark, n), Ok(&page(&format!("write {n}"))[..]), "{layer:?}, {g:?}: logical page {n}");
        }
        assert_eq!(layer.read(&dark, 41), Err(14));
    }
}

/// A place with any number of pages, as a state may say it: 10 from 41 on; commit and abort go up to 64, with all of them on the mark; 65 is
/// no place. On two planes 42 is none.
#[test]
fn a_place_may_have_more() {
    for ((layer, planes), n) in layers_and_planes().flat_map(|l| (1..=ROOM + 1).map(move |n| (l, n))) {
        let g = Geometry::new(8, 8, 16).with_planes(planes);
        let most = if planes == 2 { CHANGE_PAGES } else { ROOM };
        let mut store = formatted(g);
        let mut state = State::decode(&store.state).expect("a state");
        state.places[0] = Place { id: 5, lpns: vec![3; n], ppns: vec![17; n - 1], drops: vec![false; n] };
        store.state = state.encode();
        store.hold[..DATA].copy_from_slice(&page("held"));
        let before = store.clone();
        // of a write or a drop, and of a commit or an abort
        let (grows, closes) = match n {
            _ if n > most => (1, 1),
            1..41 => (0, 0),
            _ => (10, 0),
        };

        let answer = write(layer, &mut store, 5, 4, "one more");
        assert_eq!(answer, grows, "{layer:?}: a write to a place with {n} pages");
        assert!(answer == 0 || store == before, "{layer:?}: a refused write changed something, {n} pages");

        let mut store = before.clone();
        let answer = layer.call(&mut store, &Call::Drop { id: 5, lpn: 4 });
        assert_eq!(answer, grows, "{layer:?}: a drop to a place with {n} pages");
        assert!(answer == 0 || store == before, "{layer:?}: a refused drop changed something, {n} pages");

        let mut store = before.clone();
        assert_eq!(layer.call(&mut store, &Call::Abort(5)), closes, "{layer:?}: an abort with {n} pages");

        let mut store = before.clone();
        assert_eq!(layer.call(&mut store, &Call::Commit(5)), closes, "{layer:?}: a commit with {n} pages");
        if n <= most {
            let mark = &store.array[16 * PAGE..17 * PAGE];
            assert_eq!(u16::from_le_bytes([mark[514], mark[515]]) as usize, n, "{layer:?}: the mark's TxCnt");
            assert_eq!(mark[525] as usize, if planes == 2 { n } else { 0 }, "{layer:?}: the mark's Reserved");
            assert_eq!(layer.read(&store, 3), Ok(&page("held")[..]));
        }
    }
}

/// The array of `tests/report/arrays/sixty-four`, which tests/report/README.md describes.
fn stored() -> (Geometry, Vec<u8>) {
    let g = Geometry::new(8, 15, 30);
    let mut array = include_bytes!("../../tests/report/arrays/sixty-four").to_vec();
    array.resize(g.array_len(), 0xFF);
    (g, array)
}

/// Recovers an array with any map, hold and state, and reads every logical page.
fn recovers(array: &[u8], due: impl Fn(u16) -> Option<String>, what: &str) {
    let (g, _) = stored();
    let mut rng = Rng::new(64);
    for layer in LAYERS {
        let mut store = Store { array: array.to_vec(), state: lost_state(&mut rng), ..Store::blank(g) };
        rng.fill(&mut store.hold);
        store.map.iter_mut().for_each(|e| *e = rng.next() as u16);
        assert_eq!(layer.call(&mut store, &Call::Recover(g)), 0, "{layer:?}, {what}");
        for lpn in 0..g.logical {
            let read = layer.read(&store, lpn).map(|d| d.to_vec());
            assert_eq!(read, due(lpn).map(|text| page(&text)).ok_or(14), "{layer:?}, {what}: logical page {lpn}");
        }
    }
}

/// In full: each logical page reads as the change's last write of it, or the later lone write's.
#[test]
fn a_change_of_64_pages_is_recovered_in_full() {
    let (_, array) = stored();
    let mark = &array[97 * PAGE..98 * PAGE];
    assert_eq!((mark[514], mark[516]), (64, 5), "page 97 is the mark of 64 pages");
    let due = |lpn: u16| match lpn {
        7 => "LPN 7, after".to_string(),
        0..4 => format!("LPN {lpn}, write {} of 64", lpn + 61),
        _ => format!("LPN {lpn}, write {} of 64", lpn + 31),
    };
    recovers(&array, |lpn| Some(due(lpn)), "the stored array");
}

/// Or not at all: with one bit of any of its pages not programmed, the settings are those from before it, and the later lone write's.
#[test]
fn a_change_of_64_pages_short_of_a_bit_is_not_there() {
    let (_, array) = stored();
    let pages: Vec<usize> = (0..array.len() / PAGE).filter(|k| array[k * PAGE + 516..k * PAGE + 520] == 5u32.to_le_bytes()).collect();
    assert_eq!(pages.len(), 64);
    for k in pages {
        let mut torn = array.clone();
        torn[k * PAGE + 511] |= 1;
        assert_ne!(torn, array);
        let due = |lpn: u16| match lpn {
            7 => Some("LPN 7, after".to_string()),
            0..3 | 29 => Some(format!("LPN {lpn}, before")),
            _ => None,
        };
        recovers(&torn, due, &format!("page {k} torn"));
    }
}
