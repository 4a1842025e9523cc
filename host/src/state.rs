//! A state as its fields, for programs that look into it. The layer itself takes and gives the bytes.
use crate::{Geometry, STATE};

const PLACES: usize = 281;
const PLACE: usize = 325;
/// Within a place: one byte a page, 0 for a write and 1 for a drop.
const DROPS: usize = 261;

/// The blocks of each zone, in order; a data block in none of them is checkpointed.
#[derive(Clone, PartialEq, Eq, Debug, Default)]
pub struct Zones {
    pub available: Vec<u8>,
    pub unavailable: Vec<u8>,
    pub free: Vec<u8>,
    pub pointer: u8,
}

/// A command of several strides.
#[derive(Clone, Copy, PartialEq, Eq, Debug)]
pub enum Kind {
    Idle,
    Format,
    Checkpoint,
    Reclaim,
}

/// The work under way and its stride number, 0 where it has none.
#[derive(Clone, Copy, PartialEq, Eq, Debug)]
pub struct Work {
    pub kind: Kind,
    pub stride: u16,
}

/// The plane of the last data block page, on a flash of two planes; neither after a format or a recover, and on one plane.
#[derive(Clone, Copy, PartialEq, Eq, Debug, Default)]
pub enum Plane {
    #[default]
    Neither,
    Even,
    Odd,
}

/// A transaction place: the pages written in order, logical and physical, and which of them are drops. The last of them is held and has no
/// physical page yet.
#[derive(Clone, PartialEq, Eq, Debug, Default)]
pub struct Place {
    pub id: u32,
    pub lpns: Vec<u16>,
    pub ppns: Vec<u16>,
    pub drops: Vec<bool>,
}

impl Place {
    pub fn is_free(&self) -> bool {
        self.id == 0 && self.lpns.is_empty()
    }
}

/// The state of a device.
#[derive(Clone, PartialEq, Eq, Debug)]
pub struct State {
    pub geometry: Geometry,
    pub zones: Zones,
    pub version: u32,
    pub checkpoint: u32,
    pub front: u8,
    pub first: u8,
    pub work: Work,
    pub last: Plane,
    pub places: Vec<Place>,
}

fn half(b: &[u8], at: usize) -> u16 {
    u16::from_le_bytes([b[at], b[at + 1]])
}

fn word(b: &[u8], at: usize) -> u32 {
    u32::from_le_bytes([b[at], b[at + 1], b[at + 2], b[at + 3]])
}

impl State {
    /// The fields of a state's bytes; none where they are no state. A count past its list is taken as the whole list.
    pub fn decode(b: &[u8]) -> Option<State> {
        if b.len() != STATE {
            return None;
        }
        let kind = match b[277] {
            0 => Kind::Idle,
            1 => Kind::Format,
            2 => Kind::Checkpoint,
            3 => Kind::Reclaim,
            _ => return None,
        };
        let stride = half(b, 278);
        if matches!(kind, Kind::Idle | Kind::Reclaim) && stride != 0 {
            return None;
        }
        let last = match b[280] {
            0 => Plane::Neither,
            1 => Plane::Even,
            2 => Plane::Odd,
            _ => return None,
        };
        let drops = |i: usize| &b[PLACES + PLACE * i + DROPS..PLACES + PLACE * (i + 1)];
        if (0..8).any(|i| drops(i).iter().any(|d| *d > 1)) {
            return None;
        }
        let blocks = |at: usize, room: usize| b[at..at + (b[at + room] as usize).min(room)].to_vec();
        let zones = Zones { available: blocks(8, 3), unavailable: blocks(12, 126), free: blocks(139, 126), pointer: b[266] };
        let places = (0..8)
            .map(|i| {
                let at = PLACES + PLACE * i;
                let count = (b[at + 4] as usize).min(64);
                Place {
                    id: word(b, at),
                    lpns: (0..count).map(|j| half(b, at + 5 + 2 * j)).collect(),
                    ppns: (0..count.saturating_sub(1)).map(|j| half(b, at + 133 + 2 * j)).collect(),
                    drops: drops(i)[..count].iter().map(|d| *d == 1).collect(),
                }
            })
            .collect();
        Some(State {
            geometry: Geometry::new(half(b, 0), half(b, 2), half(b, 4)).with_planes(half(b, 6)),
            zones,
            version: word(b, 267),
            checkpoint: word(b, 271),
            front: b[275],
            first: b[276],
            work: Work { kind, stride },
            last,
            places,
        })
    }

    /// The bytes of a state; what stands past a count is 0. More than a list has room for is left out, though counted.
    pub fn encode(&self) -> Vec<u8> {
        let mut b = vec![0u8; STATE];
        let put = |b: &mut Vec<u8>, at: usize, bytes: &[u8]| b[at..at + bytes.len()].copy_from_slice(bytes);
        put(&mut b, 0, &self.geometry.blocks.to_le_bytes());
        put(&mut b, 2, &self.geometry.pages.to_le_bytes());
        put(&mut b, 4, &self.geometry.logical.to_le_bytes());
        put(&mut b, 6, &self.geometry.planes.to_le_bytes());
        for (list, at, room) in [(&self.zones.available, 8, 3), (&self.zones.unavailable, 12, 126), (&self.zones.free, 139, 126)] {
            put(&mut b, at, &list[..list.len().min(room)]);
            b[at + room] = list.len() as u8;
        }
        b[266] = self.zones.pointer;
        put(&mut b, 267, &self.version.to_le_bytes());
        put(&mut b, 271, &self.checkpoint.to_le_bytes());
        b[275] = self.front;
        b[276] = self.first;
        b[277] = self.work.kind as u8;
        put(&mut b, 278, &self.work.stride.to_le_bytes());
        b[280] = self.last as u8;
        for (i, p) in self.places.iter().take(8).enumerate() {
            let at = PLACES + PLACE * i;
            put(&mut b, at, &p.id.to_le_bytes());
            b[at + 4] = p.lpns.len() as u8;
            for (j, lpn) in p.lpns.iter().take(64).enumerate() {
                put(&mut b, at + 5 + 2 * j, &lpn.to_le_bytes());
            }
            for (j, ppn) in p.ppns.iter().take(64).enumerate() {
                put(&mut b, at + 133 + 2 * j, &ppn.to_le_bytes());
            }
            for (j, drop) in p.drops.iter().take(64).enumerate() {
                b[at + DROPS + j] = (*drop).into();
            }
        }
        b
    }
}
