//! Format: every block erased, then a first checkpoint.
use crate::checkpoint::{program_map, program_zones};
use crate::flash::{erase, pages, pages_mut, Geometry};
use crate::frame;
use crate::state::{State, Work};
use crate::zones::{Blocks, NewZones};
use crate::{ensure, Answer, Outcome, Refusal, STATE, UNMAPPED};

pub fn format(array: &mut [u8], map: &mut [u16], hold: &[u8], mut state: State<&mut [u8; STATE]>, g: Geometry) -> Outcome {
    frame::lengths(g, array, map, hold)?;
    let stride = match state.work() {
        Work::Format(stride) if state.encoded() && state.geometry() == g => {
            ensure(frame::format_in_range(g, pages(array), stride), Refusal::BadFrame)?;
            stride
        }
        _ => 0,
    };
    let pages = pages_mut(array);
    map.fill(UNMAPPED);
    state.clear(g);
    state.set_work(Work::Format(stride + 1));
    if stride < g.blocks {
        erase(&mut pages[g.block(stride)]);
    } else if stride < g.blocks + g.map_pages() {
        let i = stride - g.blocks;
        program_map(&mut pages[i], g, i, map, 1);
    } else {
        let mut new = NewZones { available: Blocks::of([]), unavailable: Blocks::of([]), free: Blocks::of(2..g.blocks as u8), pointer: 2 };
        new.refill(g.blocks);
        program_zones(&mut pages[g.map_pages()], g, &new.zones(), 0, 1);
        state.set_zones(&new.zones());
        state.set_checkpoint(1);
        state.set_work(Work::Idle);
        return Ok(Answer::Done);
    }
    Ok(Answer::More)
}
