//! The proved flash layer for programs in Rust: the ten commands of document 01 (docs/PAPERS.md) and document 02's drop, over buffers that
//! a `Store` owns.
//!
//! Nothing is required of a caller: any array, map, hold and state of any length may be handed in. A call is carried out, or it is
//! refused with one of document 01's numbers and every buffer is as it was. `Class` tells what a page is, and how torn.
//!
//! ```
//! use bokuhira::{Answer, Geometry, Refusal, Store, DATA};
//!
//! fn main() -> Result<(), Refusal> {
//!     let size = Geometry::new(8, 8, 16);
//!     let mut store = Store::formatted(size)?;
//!     // a change of two pages: unseen until its commit
//!     assert_eq!(store.begin(7), Answer::Done);
//!     assert_eq!(store.write(7, 3, &[0x33; DATA]), Answer::Done);
//!     assert_eq!(store.write(7, 4, &[0x44; DATA]), Answer::Done);
//!     assert_eq!(store.read(3), Err(Refusal(14)));
//!     assert_eq!(store.commit(7), Answer::Done);
//!     // a power cut: the array stays, map, hold and state are lost
//!     let mut dark = Store { array: store.array, ..Store::blank(size) };
//!     assert_eq!(dark.recover(size), Answer::Done);
//!     assert_eq!(dark.read(3)?, [0x33; DATA]);
//!     assert_eq!(dark.read(4)?, [0x44; DATA]);
//!     // a change that drops a page: from its commit on it reads as never written
//!     assert_eq!(dark.begin(8), Answer::Done);
//!     assert_eq!(dark.drop_page(8, 3), Answer::Done);
//!     assert_eq!(dark.commit(8), Answer::Done);
//!     assert_eq!(dark.read(3), Err(Refusal(14)));
//!     Ok(())
//! }
//! ```

mod answer;
mod class;
mod raw;
mod state;

pub use answer::{Answer, Refusal};
pub use class::Class;
pub use state::{Kind, Place, Plane, State, Work, Zones};

/// The bytes of a page, of its data, and of its spare area.
pub const PAGE: usize = 528;
pub const DATA: usize = 512;
pub const SPARE: usize = 16;
/// The bytes of the hold: a page of data for each of the eight places.
pub const HOLD: usize = 4096;
/// The bytes of a state.
pub const STATE: usize = 2881;
/// The pages up to which a change may be written. On one plane one that was begun before version 0.2 may have up to 64: it can be committed or
/// aborted.
pub const CHANGE_PAGES: usize = 41;
/// The map entry of a logical page that was never written, or was dropped.
pub const UNMAPPED: u16 = 0xFFFF;

/// The size of a flash array: blocks, pages in each, logical pages, and planes, 1 or 2.
#[derive(Clone, Copy, PartialEq, Eq, Debug)]
pub struct Geometry {
    pub blocks: u16,
    pub pages: u16,
    pub logical: u16,
    pub planes: u16,
}

impl Geometry {
    /// Of one plane.
    pub const fn new(blocks: u16, pages: u16, logical: u16) -> Geometry {
        Geometry { blocks, pages, logical, planes: 1 }
    }

    /// The same with another number of planes.
    ///
    /// ```
    /// use bokuhira::{Answer, Geometry, Plane, Refusal, State, Store, DATA};
    ///
    /// fn main() -> Result<(), Refusal> {
    ///     let mut store = Store::formatted(Geometry::new(8, 8, 16).with_planes(2))?;
    ///     let last = |store: &Store| State::decode(&store.state).map(|s| s.last);
    ///     assert_eq!(last(&store), Some(Plane::Neither));
    ///     // pages are taken from blocks 2 and 3 in turn
    ///     for (lpn, plane) in [(3, Plane::Even), (4, Plane::Odd), (3, Plane::Even)] {
    ///         assert_eq!(store.lone(lpn, &[0x33; DATA]), Answer::Done);
    ///         assert_eq!(last(&store), Some(plane));
    ///     }
    ///     Ok(())
    /// }
    /// ```
    pub const fn with_planes(self, planes: u16) -> Geometry {
        Geometry { planes, ..self }
    }

    /// The bytes of an array of this size.
    pub fn array_len(self) -> usize {
        self.blocks as usize * self.pages as usize * PAGE
    }

    /// The map pages of a checkpoint.
    pub fn map_pages(self) -> usize {
        (self.logical as usize).div_ceil(256)
    }
}

/// A command with its arguments.
#[derive(Clone, PartialEq, Eq, Debug)]
pub enum Call {
    Format(Geometry),
    Recover(Geometry),
    Begin(u32),
    Write { id: u32, lpn: u16, data: Vec<u8> },
    Drop { id: u32, lpn: u16 },
    Lone { lpn: u16, data: Vec<u8> },
    Commit(u32),
    Abort(u32),
    Read(u16),
    Checkpoint,
    Reclaim,
}

/// The buffers that the layer works on. Their lengths are the caller's; a length that does not fit is refused by the command.
#[derive(Clone, PartialEq, Eq)]
pub struct Store {
    pub array: Vec<u8>,
    pub map: Vec<u16>,
    pub hold: Vec<u8>,
    pub state: Vec<u8>,
}

impl Store {
    /// Buffers of the right lengths for a geometry, all zero.
    pub fn blank(g: Geometry) -> Store {
        Store { array: vec![0; g.array_len()], map: vec![0; g.logical as usize], hold: vec![0; HOLD], state: vec![0; STATE] }
    }

    /// A store that was formatted to the end.
    pub fn formatted(g: Geometry) -> Result<Store, Refusal> {
        let mut store = Store::blank(g);
        while store.format(g).more()? {}
        Ok(store)
    }

    /// One stride of a format.
    pub fn format(&mut self, g: Geometry) -> Answer {
        Answer::of(raw::format(self, g))
    }

    /// Makes map and state from what stands on the array.
    pub fn recover(&mut self, g: Geometry) -> Answer {
        Answer::of(raw::recover(self, g))
    }

    /// Opens a change.
    pub fn begin(&mut self, id: u32) -> Answer {
        Answer::of(raw::begin(self, id))
    }

    /// Adds a page to an open change of fewer than `CHANGE_PAGES`.
    pub fn write(&mut self, id: u32, lpn: u16, data: &[u8]) -> Answer {
        Answer::of(raw::write(self, id, lpn, data))
    }

    /// Adds the drop of a page to an open change of fewer than `CHANGE_PAGES`: after the commit it reads as never written. A page that is
    /// unmapped may be dropped too.
    pub fn drop_page(&mut self, id: u32, lpn: u16) -> Answer {
        Answer::of(raw::drop_page(self, id, lpn))
    }

    /// Writes a page by itself.
    pub fn lone(&mut self, lpn: u16, data: &[u8]) -> Answer {
        Answer::of(raw::lone(self, lpn, data))
    }

    /// Closes a change and enters its pages. Of two changes that write and drop no logical page in common it does not matter which is
    /// committed first: if both are done one straight after the other, so they are in the other order, and every page reads the same.
    ///
    /// ```
    /// use bokuhira::{Answer, Geometry, Refusal, Store, DATA};
    ///
    /// fn main() -> Result<(), Refusal> {
    ///     let mut store = Store::formatted(Geometry::new(8, 8, 16))?;
    ///     assert_eq!(store.lone(4, &[0x44; DATA]), Answer::Done);
    ///     assert_eq!((store.begin(7), store.begin(8)), (Answer::Done, Answer::Done));
    ///     assert_eq!(store.write(7, 3, &[0x33; DATA]), Answer::Done);
    ///     assert_eq!(store.drop_page(8, 4), Answer::Done);
    ///     let mut other = store.clone();
    ///     assert_eq!((store.commit(7), store.commit(8)), (Answer::Done, Answer::Done));
    ///     assert_eq!((other.commit(8), other.commit(7)), (Answer::Done, Answer::Done));
    ///     assert!((0..16).all(|lpn| store.read(lpn) == other.read(lpn)));
    ///     Ok(())
    /// }
    /// ```
    pub fn commit(&mut self, id: u32) -> Answer {
        Answer::of(raw::commit(self, id))
    }

    /// Forgets an open change.
    pub fn abort(&mut self, id: u32) -> Answer {
        Answer::of(raw::abort(self, id))
    }

    /// The 512 bytes of a logical page, as they stand in the array.
    pub fn read(&self, lpn: u16) -> Result<&[u8], Refusal> {
        match raw::read(self, lpn) {
            (0, at) => Ok(&self.array[at..at + DATA]),
            (n, _) => Err(Refusal(n)),
        }
    }

    /// One stride of a checkpoint.
    pub fn checkpoint(&mut self) -> Answer {
        Answer::of(raw::checkpoint(self))
    }

    /// One stride of a reclaim.
    pub fn reclaim(&mut self) -> Answer {
        Answer::of(raw::reclaim(self))
    }

    /// The class of page k of the array; none past its end.
    pub fn class(&self, k: usize) -> Option<Class> {
        self.array.chunks_exact(PAGE).nth(k).and_then(Class::of)
    }

    /// Carries out a call. A read gives its answer only.
    pub fn call(&mut self, call: &Call) -> Answer {
        match call {
            Call::Format(g) => self.format(*g),
            Call::Recover(g) => self.recover(*g),
            Call::Begin(id) => self.begin(*id),
            Call::Write { id, lpn, data } => self.write(*id, *lpn, data),
            Call::Drop { id, lpn } => self.drop_page(*id, *lpn),
            Call::Lone { lpn, data } => self.lone(*lpn, data),
            Call::Commit(id) => self.commit(*id),
            Call::Abort(id) => self.abort(*id),
            Call::Read(lpn) => self.read(*lpn).map_or_else(Answer::Refused, |_| Answer::Done),
            Call::Checkpoint => self.checkpoint(),
            Call::Reclaim => self.reclaim(),
        }
    }
}
