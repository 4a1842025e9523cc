//! The pages of a change: begin, write, drop, lone write, commit, abort and read.
use crate::flash::{next_page, pages, pages_mut, Geometry};
use crate::frame;
use crate::page::{id_of, is_whole, leads, program, Page, Spare};
use crate::state::{Place, State};
use crate::{ensure, Answer, Outcome, Refusal, DATA, LAST, LONGEST, PAGE, PLACES, STATE, UNMAPPED};
use std::ops::Deref;

type Bytes = [u8; STATE];

/// The frame check of a command that no other work may be under way for.
fn idle<B: Deref<Target = Bytes>>(array: &[u8], map: &[u16], hold: &[u8], state: &State<B>) -> Result<Geometry, Refusal> {
    let g = frame::check(array, map, hold, state)?;
    frame::not_busy(state.work(), false)?;
    Ok(g)
}

/// The page a change programs next: one block's worth of clean pages stays for reclaim.
fn next<B: Deref<Target = Bytes>>(pages: &[Page], g: Geometry, state: &State<B>) -> Result<usize, Refusal> {
    let zones = state.zones().ok_or(Refusal::BadFrame)?;
    next_page(pages, g, zones.available, state.last_plane(), g.pages + 1).ok_or(Refusal::ZoneShort)
}

fn next_version<B: Deref<Target = Bytes>>(state: &State<B>) -> Result<u32, Refusal> {
    ensure(state.version() < LAST, Refusal::VersionsSpent)?;
    Ok(state.version() + 1)
}

fn active<B: Deref<Target = Bytes>>(state: &State<B>, id: u32) -> Result<usize, Refusal> {
    state.active(id).ok_or(Refusal::NotBegun)
}

pub fn begin(array: &[u8], map: &[u16], hold: &[u8], mut state: State<&mut Bytes>, id: u32) -> Outcome {
    let g = idle(array, map, hold, &state)?;
    ensure(id != 0 && id <= LAST, Refusal::BadIdentifier)?;
    let zones = state.zones().ok_or(Refusal::BadFrame)?;
    // TxID first: few pages have it, so few are counted
    let live = state.active(id).is_some() || zones.scan(pages(array), g).any(|(_, p)| id_of(p) == id && is_whole(p));
    ensure(!live, Refusal::IdentifierLive)?;
    let place = (0..PLACES).find(|&i| state.place(i).is_free()).ok_or(Refusal::PlacesFull)?;
    state.set_place(place, id);
    Ok(Answer::Done)
}

pub fn write(array: &mut [u8], map: &[u16], hold: &mut [u8], state: State<&mut Bytes>, id: u32, lpn: u16, data: &[u8]) -> Outcome {
    let g = idle(array, map, hold, &state)?;
    ensure(data.len() == DATA, Refusal::BadLength)?;
    add(g, array, hold, state, id, lpn, Some(data))
}

pub fn drop_page(array: &mut [u8], map: &[u16], hold: &mut [u8], state: State<&mut Bytes>, id: u32, lpn: u16) -> Outcome {
    let g = idle(array, map, hold, &state)?;
    add(g, array, hold, state, id, lpn, None)
}

/// Adds a page to a change: a write of these data, or a drop.
fn add(g: Geometry, array: &mut [u8], hold: &mut [u8], mut state: State<&mut Bytes>, id: u32, lpn: u16, data: Option<&[u8]>) -> Outcome {
    ensure(usize::from(lpn) < g.logical, Refusal::BadLogicalPage)?;
    let i = active(&state, id)?;
    let place = state.place(i);
    ensure(place.count() < LONGEST, Refusal::TooLong)?;
    let held = &mut hold[DATA * i..][..DATA];
    let mut programmed = None;
    if place.count() > 0 {
        let pages = pages_mut(array);
        let k = next(pages, g, &state)?;
        program(&mut pages[k], held, held_spare(g, place, 0, 0));
        state.set_last_plane(g, k);
        programmed = Some(k);
    }
    held.copy_from_slice(data.unwrap_or(&[0xFF; DATA]));
    state.add_page(i, lpn, data.is_none(), programmed);
    Ok(Answer::Done)
}

/// The spare area of the page that a place holds.
fn held_spare(g: Geometry, place: Place, count: u16, version: u32) -> Spare {
    let spare = if place.holds_drop() { Spare::dropping } else { Spare::data };
    Spare { reserved: g.write_number(place.count()), ..spare(place.held(), count, place.id(), version) }
}

pub fn lone(array: &mut [u8], map: &mut [u16], hold: &[u8], mut state: State<&mut Bytes>, lpn: u16, data: &[u8]) -> Outcome {
    let g = idle(array, map, hold, &state)?;
    ensure(data.len() == DATA, Refusal::BadLength)?;
    ensure(usize::from(lpn) < g.logical, Refusal::BadLogicalPage)?;
    let version = next_version(&state)?;
    let pages = pages_mut(array);
    let k = next(pages, g, &state)?;
    program(&mut pages[k], data, Spare::data(lpn, 1, 0, version));
    map[usize::from(lpn)] = k as u16;
    state.set_last_plane(g, k);
    state.set_version(version);
    Ok(Answer::Done)
}

pub fn commit(array: &mut [u8], map: &mut [u16], hold: &[u8], mut state: State<&mut Bytes>, id: u32) -> Outcome {
    let g = idle(array, map, hold, &state)?;
    let i = active(&state, id)?;
    let place = state.place(i);
    if place.count() > 0 {
        let version = next_version(&state)?;
        let pages = pages_mut(array);
        let k = next(pages, g, &state)?;
        program(&mut pages[k], &hold[DATA * i..][..DATA], held_spare(g, place, place.count() as u16, version));
        for ((lpn, ppn), drop) in place.lpns().zip(place.ppns().chain([k as u16])).zip(place.drops()) {
            map[usize::from(lpn)] = leads(drop, ppn);
        }
        state.set_last_plane(g, k);
        state.set_version(version);
    }
    state.set_place(i, 0);
    Ok(Answer::Done)
}

pub fn abort(array: &[u8], map: &[u16], hold: &[u8], mut state: State<&mut Bytes>, id: u32) -> Outcome {
    idle(array, map, hold, &state)?;
    let place = active(&state, id)?;
    state.set_place(place, 0);
    Ok(Answer::Done)
}

pub fn read(array: &[u8], map: &[u16], hold: &[u8], state: State<&Bytes>, lpn: u16) -> Result<usize, Refusal> {
    frame::check(array, map, hold, &state)?;
    match map.get(usize::from(lpn)) {
        None => Err(Refusal::BadLogicalPage),
        Some(&UNMAPPED) => Err(Refusal::NeverWritten),
        Some(&ppn) => Ok(usize::from(ppn) * PAGE),
    }
}
