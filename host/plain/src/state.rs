//! A state, kept as its bytes: where each field stands.
//!
//! | Offset | Bytes | Field |
//! |---|---|---|
//! | 0, 2, 4, 6 | 2 each | blocks, pages, logical pages, planes |
//! | 8, 11 | 3, 1 | available blocks, their number |
//! | 12, 138 | 126, 1 | unavailable blocks, their number |
//! | 139, 265 | 126, 1 | free blocks, their number |
//! | 266 | 1 | pointer |
//! | 267, 271 | 4 each | last version, checkpoint number |
//! | 275, 276 | 1 each | front block, first page of a checkpoint under way |
//! | 277, 278 | 1, 2 | kind of the work under way, stride number |
//! | 280 | 1 | plane of the last data block page: 0 neither, 1 even, 2 odd |
//! | 281 | 8 × 325 | places: TxID (4), count (1), 64 logical and 64 physical page numbers (2 each), 64 times 0 for a write or 1 for a drop |
use crate::flash::{Geometry, Plane};
use crate::zones::Zones;
use crate::{ensure, Refusal, PLACES, PLACE_PAGES, STATE};
use std::ops::{Deref, DerefMut};

type Bytes = [u8; STATE];

const AVAILABLE: usize = 8;
const UNAVAILABLE: usize = 12;
const FREE: usize = 139;
const POINTER: usize = 266;
const VERSION: usize = 267;
const CHECKPOINT: usize = 271;
const FRONT: usize = 275;
const FIRST: usize = 276;
const KIND: usize = 277;
const STRIDE: usize = 278;
const LAST_PLANE: usize = 280;
const PLACE: usize = 281;
const PLACE_BYTES: usize = DROPS + PLACE_PAGES;
/// Within a place: the logical pages, the physical ones, and which of them are drops.
const LPNS: usize = 5;
const PPNS: usize = LPNS + 2 * PLACE_PAGES;
const DROPS: usize = PPNS + 2 * PLACE_PAGES;

/// The work under way, with its stride number.
#[derive(Clone, Copy, PartialEq, Eq)]
pub enum Work {
    Idle,
    Format(usize),
    Checkpoint(usize),
    Reclaim,
}

/// Bytes that are a state, which may still be out of range; in a format or a recover, any bytes.
pub struct State<B>(B);

impl<'a> State<&'a Bytes> {
    pub fn view(bytes: &'a [u8]) -> Result<State<&'a Bytes>, Refusal> {
        let bytes = bytes.try_into().map_err(|_| Refusal::BadFrame)?;
        let state = State(bytes);
        ensure(state.encoded(), Refusal::BadFrame)?;
        Ok(state)
    }
}

impl<'a> State<&'a mut Bytes> {
    pub fn edit(bytes: &'a mut [u8]) -> Result<State<&'a mut Bytes>, Refusal> {
        let state = State::any(bytes)?;
        ensure(state.encoded(), Refusal::BadFrame)?;
        Ok(state)
    }

    /// For format and recover: any bytes of the right number.
    pub fn any(bytes: &'a mut [u8]) -> Result<State<&'a mut Bytes>, Refusal> {
        bytes.try_into().map(State).map_err(|_| Refusal::BadFrame)
    }
}

fn work_in(bytes: &Bytes) -> Option<Work> {
    match (bytes[KIND], half(bytes, STRIDE)) {
        (0, 0) => Some(Work::Idle),
        (1, n) => Some(Work::Format(n.into())),
        (2, n) => Some(Work::Checkpoint(n.into())),
        (3, 0) => Some(Work::Reclaim),
        _ => None,
    }
}

fn half(bytes: &Bytes, at: usize) -> u16 {
    u16::from_le_bytes([bytes[at], bytes[at + 1]])
}

fn word(bytes: &Bytes, at: usize) -> u32 {
    u32::from_le_bytes([bytes[at], bytes[at + 1], bytes[at + 2], bytes[at + 3]])
}

/// A list of blocks with room for `room` of them and its count behind; none where the count is above that.
fn blocks(bytes: &Bytes, at: usize, room: usize) -> Option<&[u8]> {
    bytes[at..at + room].get(..bytes[at + room].into())
}

/// One transaction place.
#[derive(Clone, Copy)]
pub struct Place<'a>(&'a [u8]);

impl<'a> Place<'a> {
    pub fn id(self) -> u32 {
        u32::from_le_bytes([self.0[0], self.0[1], self.0[2], self.0[3]])
    }

    /// The pages written, the held one included.
    pub fn count(self) -> usize {
        self.0[4].into()
    }

    pub fn is_free(self) -> bool {
        self.id() == 0 && self.count() == 0
    }

    /// The logical pages written, in order; the last is held.
    pub fn lpns(self) -> impl Iterator<Item = u16> + 'a {
        halves(&self.0[LPNS..][..2 * self.count()])
    }

    /// The programmed pages, in order.
    pub fn ppns(self) -> impl Iterator<Item = u16> + 'a {
        halves(&self.0[PPNS..][..2 * self.count().saturating_sub(1)])
    }

    /// Which of the pages written are drops, in order.
    pub fn drops(self) -> impl Iterator<Item = bool> + 'a {
        self.0[DROPS..][..self.count()].iter().map(|d| *d == 1)
    }

    /// The logical page that is held, of a place with pages.
    pub fn held(self) -> u16 {
        let at = LPNS + 2 * (self.count() - 1);
        u16::from_le_bytes([self.0[at], self.0[at + 1]])
    }

    /// Whether the held page is a drop, of a place with pages.
    pub fn holds_drop(self) -> bool {
        self.0[DROPS + self.count() - 1] == 1
    }
}

fn halves(bytes: &[u8]) -> impl Iterator<Item = u16> + '_ {
    bytes.as_chunks().0.iter().map(|h| u16::from_le_bytes(*h))
}

impl<B: Deref<Target = Bytes>> State<B> {
    /// Whether the bytes are a state's: the work under way is of a known kind, the last plane is known, and every page of a place is a write or
    /// a drop.
    pub fn encoded(&self) -> bool {
        work_in(&self.0).is_some() && self.0[LAST_PLANE] <= 2 && self.places().all(|p| p.0[DROPS..].iter().fold(0, |all, d| all | d) <= 1)
    }

    pub fn geometry(&self) -> Geometry {
        Geometry::new(half(&self.0, 0), half(&self.0, 2), half(&self.0, 4), half(&self.0, 6))
    }

    /// The zone lists; none where a count is above its list's room.
    pub fn zones(&self) -> Option<Zones<'_>> {
        Some(Zones {
            available: blocks(&self.0, AVAILABLE, 3)?,
            unavailable: blocks(&self.0, UNAVAILABLE, 126)?,
            free: blocks(&self.0, FREE, 126)?,
            pointer: self.0[POINTER],
        })
    }

    pub fn version(&self) -> u32 {
        word(&self.0, VERSION)
    }

    pub fn checkpoint(&self) -> u32 {
        word(&self.0, CHECKPOINT)
    }

    pub fn front(&self) -> usize {
        self.0[FRONT].into()
    }

    pub fn first(&self) -> usize {
        self.0[FIRST].into()
    }

    /// None where the kind is unknown.
    pub fn work(&self) -> Work {
        work_in(&self.0).unwrap_or(Work::Idle)
    }

    /// The plane of the last data block page; none after a format or a recover.
    pub fn last_plane(&self) -> Option<Plane> {
        match self.0[LAST_PLANE] {
            1 => Some(Plane::Even),
            2 => Some(Plane::Odd),
            _ => None,
        }
    }

    pub fn place(&self, i: usize) -> Place<'_> {
        Place(&self.0[PLACE + PLACE_BYTES * i..][..PLACE_BYTES])
    }

    pub fn places(&self) -> impl Iterator<Item = Place<'_>> {
        (0..PLACES).map(|i| self.place(i))
    }

    /// The place of an active transaction.
    pub fn active(&self, id: u32) -> Option<usize> {
        (0..PLACES).find(|&i| id != 0 && self.place(i).id() == id)
    }
}

impl<B: DerefMut<Target = Bytes>> State<B> {
    fn put<const N: usize>(&mut self, at: usize, bytes: [u8; N]) {
        self.0[at..at + N].copy_from_slice(&bytes);
    }

    /// The state of a device with nothing in it.
    pub fn clear(&mut self, g: Geometry) {
        self.0.fill(0);
        self.put(0, (g.blocks as u16).to_le_bytes());
        self.put(2, (g.pages as u16).to_le_bytes());
        self.put(4, (g.logical as u16).to_le_bytes());
        self.put(6, (g.planes as u16).to_le_bytes());
        self.0[POINTER] = 2;
    }

    pub fn set_zones(&mut self, zones: &Zones) {
        self.0[AVAILABLE..POINTER].fill(0);
        for (list, at, room) in [(zones.available, AVAILABLE, 3), (zones.unavailable, UNAVAILABLE, 126), (zones.free, FREE, 126)] {
            self.0[at..at + list.len()].copy_from_slice(list);
            self.0[at + room] = list.len() as u8;
        }
        self.0[POINTER] = zones.pointer;
    }

    pub fn set_version(&mut self, version: u32) {
        self.put(VERSION, version.to_le_bytes());
    }

    pub fn set_checkpoint(&mut self, number: u32) {
        self.put(CHECKPOINT, number.to_le_bytes());
    }

    pub fn set_front(&mut self, block: usize, first: usize) {
        self.0[FRONT] = block as u8;
        self.0[FIRST] = first as u8;
    }

    pub fn set_work(&mut self, work: Work) {
        let (kind, stride) = match work {
            Work::Idle => (0, 0),
            Work::Format(n) => (1, n),
            Work::Checkpoint(n) => (2, n),
            Work::Reclaim => (3, 0),
        };
        self.0[KIND] = kind;
        self.put(STRIDE, (stride as u16).to_le_bytes());
    }

    /// Page k of a data block was programmed.
    pub fn set_last_plane(&mut self, g: Geometry, k: usize) {
        if g.two_planes() {
            self.0[LAST_PLANE] = match Plane::of(k / g.pages) {
                Plane::Even => 1,
                Plane::Odd => 2,
            };
        }
    }

    /// Gives a place to a transaction without pages; identifier 0 frees it.
    pub fn set_place(&mut self, i: usize, id: u32) {
        let at = PLACE + PLACE_BYTES * i;
        self.0[at..at + PLACE_BYTES].fill(0);
        self.put(at, id.to_le_bytes());
    }

    /// Adds a logical page to a place: it is the held one now, and the one held before was programmed.
    pub fn add_page(&mut self, i: usize, lpn: u16, drop: bool, programmed: Option<usize>) {
        let at = PLACE + PLACE_BYTES * i;
        let count = self.place(i).count();
        self.0[at + 4] = count as u8 + 1;
        self.put(at + LPNS + 2 * count, lpn.to_le_bytes());
        self.0[at + DROPS + count] = drop.into();
        if let Some(ppn) = programmed {
            self.put(at + PPNS + 2 * (count - 1), (ppn as u16).to_le_bytes());
        }
    }
}
