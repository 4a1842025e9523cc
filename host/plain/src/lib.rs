//! The flash layer of document 01 (docs/PAPERS.md) in plain Rust, written from the papers and apart from the proved one.
//!
//! Eleven functions over lent buffers: the array, the map, the hold and the 2,881 bytes of a state. Each answers 0 for done, 255 for more,
//! else the number of a refusal, which leaves every buffer as it was. Any bytes of any length may be lent. Format and recover take any 2,881
//! bytes for the state; to the others, bytes that encode none are a bad frame. Two more tell how torn pages are.

mod change;
mod checkpoint;
mod flash;
mod format;
mod frame;
mod page;
mod reclaim;
mod recover;
mod state;

mod zones;

pub use page::Class;
use state::State;

/// The bytes of a page and of its data.
pub const PAGE: usize = 528;
pub const DATA: usize = 512;
/// The bytes of the hold and of a state.
pub const HOLD: usize = 4096;
pub const STATE: usize = 2881;

const PLACES: usize = 8;
/// The pages that a place has room for, and those up to which a transaction may be written; also the highest write number.
const PLACE_PAGES: usize = 64;
const LONGEST: usize = 41;
/// The map entry of a logical page that was never written, or was dropped.
const UNMAPPED: u16 = 0xFFFF;
/// The highest version and the highest checkpoint number; the one above is no identifier either.
const LAST: u32 = 0xFFFF_FFFE;

/// Why a call is refused; the numbers are document 01's.
#[derive(Clone, Copy, PartialEq, Eq, Debug)]
enum Refusal {
    BadFrame = 1,
    NoCheckpoint,
    BadCheckpoint,
    BadPage,
    BadLogicalPage,
    BadIdentifier,
    IdentifierLive,
    NotBegun,
    PlacesFull,
    TooLong,
    BadLength,
    ZoneShort,
    VersionsSpent,
    NeverWritten,
    NoGain,
    ReserveShort,
    Busy,
}

/// What a call that is carried out answers.
#[derive(Clone, Copy, PartialEq, Eq, Debug)]
enum Answer {
    Done = 0,
    More = 255,
}

type Outcome = Result<Answer, Refusal>;

fn number(outcome: Outcome) -> u8 {
    match outcome {
        Ok(answer) => answer as u8,
        Err(refusal) => refusal as u8,
    }
}

/// Refuses where the condition does not hold.
fn ensure(holds: bool, refusal: Refusal) -> Result<(), Refusal> {
    if holds {
        Ok(())
    } else {
        Err(refusal)
    }
}

/// One stride of a format to B blocks of P pages with L logical pages on one or two planes.
pub fn format(array: &mut [u8], map: &mut [u16], hold: &[u8], state: &mut [u8], blocks: u16, pages: u16, logical: u16, planes: u16) -> u8 {
    number(State::any(state).and_then(|s| format::format(array, map, hold, s, flash::Geometry::new(blocks, pages, logical, planes))))
}

/// Makes map and state from what stands on the array.
pub fn recover(array: &[u8], map: &mut [u16], hold: &[u8], state: &mut [u8], blocks: u16, pages: u16, logical: u16, planes: u16) -> u8 {
    number(
        State::any(state).and_then(|s| recover::recover::<recover::Log>(array, map, hold, s, flash::Geometry::new(blocks, pages, logical, planes))),
    )
}

/// The same by a program that keeps no list of what it scanned, and rescans.
pub fn rescan(array: &[u8], map: &mut [u16], hold: &[u8], state: &mut [u8], blocks: u16, pages: u16, logical: u16, planes: u16) -> u8 {
    number(
        State::any(state)
            .and_then(|s| recover::recover::<recover::Rescan>(array, map, hold, s, flash::Geometry::new(blocks, pages, logical, planes))),
    )
}

/// Opens a transaction in the lowest free place.
pub fn begin(array: &[u8], map: &[u16], hold: &[u8], state: &mut [u8], id: u32) -> u8 {
    number(State::edit(state).and_then(|s| change::begin(array, map, hold, s, id)))
}

/// Holds a page for a transaction; the page held before it is programmed.
pub fn write(array: &mut [u8], map: &[u16], hold: &mut [u8], state: &mut [u8], id: u32, lpn: u16, data: &[u8]) -> u8 {
    number(State::edit(state).and_then(|s| change::write(array, map, hold, s, id, lpn, data)))
}

/// Holds a page for a transaction that drops a logical page; the page held before it is programmed.
pub fn drop_page(array: &mut [u8], map: &[u16], hold: &mut [u8], state: &mut [u8], id: u32, lpn: u16) -> u8 {
    number(State::edit(state).and_then(|s| change::drop_page(array, map, hold, s, id, lpn)))
}

/// Programs a page that is a transaction by itself.
pub fn lone(array: &mut [u8], map: &mut [u16], hold: &[u8], state: &mut [u8], lpn: u16, data: &[u8]) -> u8 {
    number(State::edit(state).and_then(|s| change::lone(array, map, hold, s, lpn, data)))
}

/// Programs the held page as the transaction's mark and enters its pages in the map.
pub fn commit(array: &mut [u8], map: &mut [u16], hold: &[u8], state: &mut [u8], id: u32) -> u8 {
    number(State::edit(state).and_then(|s| change::commit(array, map, hold, s, id)))
}

/// Forgets a transaction.
pub fn abort(array: &[u8], map: &[u16], hold: &[u8], state: &mut [u8], id: u32) -> u8 {
    number(State::edit(state).and_then(|s| change::abort(array, map, hold, s, id)))
}

/// The answer and, where it is 0, the offset in the array of the page's 512 bytes; else 0.
pub fn read(array: &[u8], map: &[u16], hold: &[u8], state: &[u8], lpn: u16) -> (u8, usize) {
    match State::view(state).and_then(|s| change::read(array, map, hold, s, lpn)) {
        Ok(at) => (0, at),
        Err(refusal) => (refusal as u8, 0),
    }
}

/// One stride of a checkpoint.
pub fn checkpoint(array: &mut [u8], map: &[u16], hold: &[u8], state: &mut [u8]) -> u8 {
    number(State::edit(state).and_then(|s| checkpoint::checkpoint(array, map, hold, s)))
}

/// One stride of a reclaim.
pub fn reclaim(array: &mut [u8], map: &mut [u16], hold: &[u8], state: &mut [u8]) -> u8 {
    number(State::edit(state).and_then(|s| reclaim::reclaim(array, map, hold, s)))
}

/// The class of a page; none where it is not 528 bytes.
pub fn class(page: &[u8]) -> Option<Class> {
    page.try_into().ok().map(page::class)
}

/// How many pages in scan order are torn; none where state and array do not fit each other.
pub fn torn(array: &[u8], state: &[u8]) -> Option<usize> {
    let state = State::view(state).ok()?;
    let (g, zones) = (state.geometry(), state.zones()?);
    let fit = g.in_range() && array.len() == g.array_len() && zones.in_range(g.blocks);
    fit.then(|| zones.scan(flash::pages(array), g).filter(|(_, p)| matches!(page::class(p), Class::Torn(_))).count())
}
