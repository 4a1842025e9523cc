//! Refusal 1, bad frame, and refusal 17, busy.
use crate::flash::{pages, Geometry};
use crate::page::{is_erased, Page};
use crate::state::{State, Work};
use crate::{ensure, Refusal, HOLD, LAST, PLACES, STATE, UNMAPPED};
use std::ops::Deref;

/// Geometry and buffer lengths in range.
pub fn lengths(g: Geometry, array: &[u8], map: &[u16], hold: &[u8]) -> Result<(), Refusal> {
    let fit = g.in_range() && array.len() == g.array_len() && map.len() == g.logical && hold.len() == HOLD;
    ensure(fit, Refusal::BadFrame)
}

/// Map entries other than 0xFFFF lie in the data blocks and none is repeated.
pub fn map_in_range(g: Geometry, entries: impl IntoIterator<Item = u16>) -> bool {
    let mut seen = [0u64; 128];
    entries.into_iter().filter(|e| *e != UNMAPPED).all(|e| {
        let n = usize::from(e);
        g.is_data_page(n) && {
            let word = &mut seen[n / 64];
            let before = *word;
            *word |= 1 << (n % 64);
            *word != before
        }
    })
}

/// Everything that refusal 1 asks of the buffers and the state; the geometry where they pass.
pub fn check<B: Deref<Target = [u8; STATE]>>(array: &[u8], map: &[u16], hold: &[u8], state: &State<B>) -> Result<Geometry, Refusal> {
    let g = state.geometry();
    lengths(g, array, map, hold)?;
    let fit = state.zones().is_some_and(|z| z.in_range(g.blocks))
        && places_in_range(g, state)
        && state.front() < 2
        && work_in_range(g, pages(array), state)
        && map_in_range(g, map.iter().copied());
    ensure(fit, Refusal::BadFrame)?;
    Ok(g)
}

fn places_in_range<B: Deref<Target = [u8; STATE]>>(g: Geometry, state: &State<B>) -> bool {
    (0..PLACES).all(|i| {
        let place = state.place(i);
        let id = place.id();
        place.is_free()
            || (id != 0 && id <= LAST && place.count() <= g.place_pages())
                && (i + 1..PLACES).all(|j| state.place(j).id() != id)
                && place.lpns().all(|lpn| usize::from(lpn) < g.logical)
                && place.ppns().all(|ppn| g.is_data_page(ppn.into()))
    })
}

fn work_in_range<B: Deref<Target = [u8; STATE]>>(g: Geometry, pages: &[Page], state: &State<B>) -> bool {
    let first = state.first();
    match state.work() {
        Work::Idle | Work::Reclaim => first == 0,
        Work::Format(stride) => first == 0 && format_in_range(g, pages, stride),
        Work::Checkpoint(stride) => {
            stride <= g.map_pages()
                && first + g.map_pages() < g.pages
                && (stride > 0 || first == 0)
                && is_erased(&pages[state.front() * g.pages + first + stride])
        }
    }
}

/// A format under way: strides done, and the next front page erased.
pub fn format_in_range(g: Geometry, pages: &[Page], stride: usize) -> bool {
    (1..=g.blocks + g.map_pages()).contains(&stride) && (stride < g.blocks || is_erased(&pages[stride - g.blocks]))
}

/// Refuses where work is under way, but for the command's own next stride.
pub fn not_busy(work: Work, own: bool) -> Result<(), Refusal> {
    ensure(work == Work::Idle || own, Refusal::Busy)
}
