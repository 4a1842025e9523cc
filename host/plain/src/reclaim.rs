//! Reclaim: the mapped pages of a checkpointed block are copied, one a call, then it is erased.
use crate::flash::{erase, next_page, pages_mut};
use crate::frame;
use crate::page::{seal, Spare};
use crate::state::{State, Work};
use crate::zones::NewZones;
use crate::{ensure, Answer, Outcome, Refusal, DATA, LAST, PAGE, STATE, UNMAPPED};

pub fn reclaim(array: &mut [u8], map: &mut [u16], hold: &[u8], mut state: State<&mut [u8; STATE]>) -> Outcome {
    let g = frame::check(array, map, hold, &state)?;
    let work = state.work();
    frame::not_busy(work, work == Work::Reclaim)?;
    let zones = state.zones().ok_or(Refusal::BadFrame)?;

    let mut mapped = [0u8; 128];
    for &ppn in map.iter().filter(|e| **e != UNMAPPED) {
        mapped[usize::from(ppn) / g.pages] += 1;
    }
    let picked = zones.checkpointed(g.blocks).min_by_key(|&b| mapped[b]).filter(|&b| usize::from(mapped[b]) < g.pages);
    let picked = picked.ok_or(Refusal::NoGain)?;
    let due = mapped[picked];

    if due == 0 {
        let mut new = NewZones::of(&zones);
        new.free.insert(zones.free.partition_point(|b| usize::from(*b) < picked), picked as u8);
        erase(&mut pages_mut(array)[g.block(picked)]);
        state.set_zones(&new.zones());
        state.set_work(Work::Idle);
        return Ok(Answer::Done);
    }

    ensure(state.version() <= LAST - u32::from(due), Refusal::VersionsSpent)?;
    let pages = pages_mut(array);
    let to = next_page(pages, g, zones.available, state.last_plane(), due.into()).ok_or(Refusal::ReserveShort)?;
    let lowest = map.iter().enumerate().filter(|(_, e)| g.block(picked).contains(&usize::from(**e))).min_by_key(|(_, e)| **e);
    let (lpn, &from) = lowest.expect("a mapped page is in the block");
    array.copy_within(usize::from(from) * PAGE..usize::from(from) * PAGE + DATA, to * PAGE);
    let version = state.version() + 1;
    seal(&mut pages_mut(array)[to], Spare::data(lpn as u16, 1, 0, version));
    map[lpn] = to as u16;
    state.set_last_plane(g, to);
    state.set_version(version);
    state.set_work(Work::Reclaim);
    Ok(Answer::More)
}
