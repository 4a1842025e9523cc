//! Checkpoint: its pages, and one stride of it a call.
use crate::flash::{clean_pages, erase, pages_mut, Geometry};
use crate::frame;
use crate::page::{seal, Page, Spare};
use crate::state::{State, Work};
use crate::zones::{slide, Zones};
use crate::{ensure, Answer, Outcome, Refusal, DATA, LAST, STATE};

/// The map entries on a map page.
pub const ENTRIES: usize = 256;

/// The spare area of page i of a checkpoint: M map pages, then the zone page.
pub fn spare(g: Geometry, i: usize, number: u32) -> Spare {
    let zone = i == g.map_pages();
    Spare { lpn: i as u16, count: if zone { i as u16 + 1 } else { 0 }, id: 0, version: number, kind: if zone { 2 } else { 1 }, reserved: 0 }
}

/// Programs map page i on an erased page; unused entries stay 0xFFFF.
pub fn program_map(page: &mut Page, g: Geometry, i: usize, map: &[u16], number: u32) {
    let entries = page.as_chunks_mut().0;
    for (to, entry) in entries[..ENTRIES].iter_mut().zip(&map[ENTRIES * i..]) {
        *to = entry.to_le_bytes();
    }
    seal(page, spare(g, i, number));
}

/// Programs the zone page.
pub fn program_zones(page: &mut Page, g: Geometry, zones: &Zones, version: u32, number: u32) {
    zones.write(version, &mut page[..DATA]);
    seal(page, spare(g, g.map_pages(), number));
}

pub fn checkpoint(array: &mut [u8], map: &[u16], hold: &[u8], mut state: State<&mut [u8; STATE]>) -> Outcome {
    let g = frame::check(array, map, hold, &state)?;
    let work = state.work();
    frame::not_busy(work, matches!(work, Work::Checkpoint(_)))?;
    ensure(state.checkpoint() < LAST, Refusal::VersionsSpent)?;
    let number = state.checkpoint() + 1;
    let pages = pages_mut(array);
    let front = state.front();
    let (first, stride) = match work {
        Work::Checkpoint(stride) => (state.first(), stride),
        _ => {
            let clean = clean_pages(&pages[g.block(front)]);
            if clean <= g.map_pages() {
                erase(&mut pages[g.block(1 - front)]);
                state.set_front(1 - front, 0);
                state.set_work(Work::Checkpoint(0));
                return Ok(Answer::More);
            }
            (g.pages - clean, 0)
        }
    };
    let at = front * g.pages + first + stride;
    if stride < g.map_pages() {
        program_map(&mut pages[at], g, stride, map, number);
        state.set_front(front, first);
        state.set_work(Work::Checkpoint(stride + 1));
        return Ok(Answer::More);
    }
    let zones = state.zones().ok_or(Refusal::BadFrame)?;
    let new = slide(pages, g, zones, state.places().map(|p| p.id()).filter(|id| *id != 0));
    program_zones(&mut pages[at], g, &new.zones(), state.version(), number);
    state.set_zones(&new.zones());
    state.set_checkpoint(number);
    state.set_front(front, 0);
    state.set_work(Work::Idle);
    Ok(Answer::Done)
}
