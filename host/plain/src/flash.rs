//! The array as pages and blocks.
use crate::page::{is_erased, Page};
use crate::{LONGEST, PAGE, PLACE_PAGES};
use std::ops::Range;

/// The most pages of a block, and the most logical pages.
pub const MOST_PAGES: usize = 64;
pub const MOST_LOGICAL: usize = 1024;

/// Blocks, pages in each, logical pages, and planes.
#[derive(Clone, Copy, PartialEq, Eq)]
pub struct Geometry {
    pub blocks: usize,
    pub pages: usize,
    pub logical: usize,
    pub planes: usize,
}

impl Geometry {
    pub fn new(blocks: u16, pages: u16, logical: u16, planes: u16) -> Geometry {
        Geometry { blocks: blocks.into(), pages: pages.into(), logical: logical.into(), planes: planes.into() }
    }

    pub fn in_range(self) -> bool {
        (8..=128).contains(&self.blocks)
            && (8..=MOST_PAGES).contains(&self.pages)
            && (1..=MOST_LOGICAL).contains(&self.logical)
            && self.logical <= (self.blocks - 6) * self.pages
            && (1..=2).contains(&self.planes)
    }

    pub fn array_len(self) -> usize {
        self.blocks * self.pages * PAGE
    }

    /// The map pages of a checkpoint.
    pub fn map_pages(self) -> usize {
        self.logical.div_ceil(256)
    }

    /// The page numbers of a block.
    pub fn block(self, b: usize) -> Range<usize> {
        b * self.pages..(b + 1) * self.pages
    }

    pub fn two_planes(self) -> bool {
        self.planes == 2
    }

    /// The pages that a place may have.
    pub fn place_pages(self) -> usize {
        if self.two_planes() {
            LONGEST
        } else {
            PLACE_PAGES
        }
    }

    /// Reserved of a transaction's n-th page.
    pub fn write_number(self, n: usize) -> u8 {
        if self.two_planes() {
            n as u8
        } else {
            0
        }
    }

    /// Whether a page number is one of a data block.
    pub fn is_data_page(self, n: usize) -> bool {
        (2 * self.pages..self.blocks * self.pages).contains(&n)
    }
}

/// The plane of a block.
#[derive(Clone, Copy, PartialEq, Eq)]
pub enum Plane {
    Even,
    Odd,
}

impl Plane {
    pub fn of(block: usize) -> Plane {
        if block % 2 == 1 {
            Plane::Odd
        } else {
            Plane::Even
        }
    }
}

pub fn pages(array: &[u8]) -> &[Page] {
    array.as_chunks().0
}

pub fn pages_mut(array: &mut [u8]) -> &mut [Page] {
    array.as_chunks_mut().0
}

pub fn erase(block: &mut [Page]) {
    block.as_flattened_mut().fill(0xFF);
}

/// The clean pages of a block: those after its last that is not erased.
pub fn clean_pages(block: &[Page]) -> usize {
    block.iter().rev().take_while(|p| is_erased(p)).count()
}

/// A block without clean pages.
pub fn is_full(block: &[Page]) -> bool {
    block.last().is_some_and(|p| !is_erased(p))
}

/// The page to be programmed next, if `least` pages or more are clean in the available blocks. On two planes those of the other plane than the
/// last page's come first.
pub fn next_page(pages: &[Page], g: Geometry, available: &[u8], last: Option<Plane>, least: usize) -> Option<usize> {
    let mut next = None;
    let mut clean = 0;
    let other = |b: &u8| g.two_planes() && last.is_some_and(|plane| plane != Plane::of(usize::from(*b)));
    for &b in available.iter().filter(|b| other(b)).chain(available.iter().filter(|b| !other(b))) {
        let block = g.block(b.into());
        if next.is_none() {
            clean = clean_pages(&pages[block.clone()]);
            next = (clean > 0).then_some(block.end - clean);
        } else {
            // no more are counted than are asked for
            clean += clean_pages(&pages[block.end - g.pages.min(least - clean)..block.end]);
        }
        if clean >= least {
            return next;
        }
    }
    None
}
