//! The calls into the archive, as include/bokuhira.h declares them. A slice passes as a pointer and a length.
use crate::{Geometry, Store};

#[rustfmt::skip]
extern "C" {
    fn bokuhira_format(a: *mut u8, an: usize, m: *mut u16, mn: usize, h: *const u8, hn: usize, s: *mut u8, sn: usize, b: u16, p: u16, l: u16, n: u16) -> u8;
    fn bokuhira_recover(a: *const u8, an: usize, m: *mut u16, mn: usize, h: *const u8, hn: usize, s: *mut u8, sn: usize, b: u16, p: u16, l: u16, n: u16) -> u8;
    fn bokuhira_begin(a: *const u8, an: usize, m: *const u16, mn: usize, h: *const u8, hn: usize, s: *mut u8, sn: usize, id: u32) -> u8;
    fn bokuhira_write(a: *mut u8, an: usize, m: *const u16, mn: usize, h: *mut u8, hn: usize, s: *mut u8, sn: usize, d: *const u8, dn: usize, id: u32, lpn: u16) -> u8;
    fn bokuhira_drop(a: *mut u8, an: usize, m: *const u16, mn: usize, h: *mut u8, hn: usize, s: *mut u8, sn: usize, id: u32, lpn: u16) -> u8;
    fn bokuhira_lone(a: *mut u8, an: usize, m: *mut u16, mn: usize, h: *const u8, hn: usize, s: *mut u8, sn: usize, d: *const u8, dn: usize, lpn: u16) -> u8;
    fn bokuhira_commit(a: *mut u8, an: usize, m: *mut u16, mn: usize, h: *const u8, hn: usize, s: *mut u8, sn: usize, id: u32) -> u8;
    fn bokuhira_abort(a: *const u8, an: usize, m: *const u16, mn: usize, h: *const u8, hn: usize, s: *mut u8, sn: usize, id: u32) -> u8;
    fn bokuhira_read(a: *const u8, an: usize, m: *const u16, mn: usize, h: *const u8, hn: usize, s: *const u8, sn: usize, at: *mut usize, lpn: u16) -> u8;
    fn bokuhira_checkpoint(a: *mut u8, an: usize, m: *const u16, mn: usize, h: *const u8, hn: usize, s: *mut u8, sn: usize) -> u8;
    fn bokuhira_reclaim(a: *mut u8, an: usize, m: *mut u16, mn: usize, h: *const u8, hn: usize, s: *mut u8, sn: usize) -> u8;
    fn bokuhira_class(p: *const u8, pn: usize, by: *mut i32) -> u8;
}

// SAFETY of every call: each pointer comes with its own vector's length, no two vectors overlap, and the archive's functions are proved to stay
// within the slices that they are lent, whatever these hold.
macro_rules! lent {
    ($f:ident, $s:ident $(, $x:expr)*) => {
        unsafe {
            $f($s.array.as_mut_ptr(), $s.array.len(), $s.map.as_mut_ptr(), $s.map.len(), $s.hold.as_mut_ptr(), $s.hold.len(), $s.state.as_mut_ptr(), $s.state.len() $(, $x)*)
        }
    };
}

pub fn format(s: &mut Store, g: Geometry) -> u8 {
    lent!(bokuhira_format, s, g.blocks, g.pages, g.logical, g.planes)
}

pub fn recover(s: &mut Store, g: Geometry) -> u8 {
    lent!(bokuhira_recover, s, g.blocks, g.pages, g.logical, g.planes)
}

pub fn begin(s: &mut Store, id: u32) -> u8 {
    lent!(bokuhira_begin, s, id)
}

pub fn write(s: &mut Store, id: u32, lpn: u16, data: &[u8]) -> u8 {
    lent!(bokuhira_write, s, data.as_ptr(), data.len(), id, lpn)
}

pub fn drop_page(s: &mut Store, id: u32, lpn: u16) -> u8 {
    lent!(bokuhira_drop, s, id, lpn)
}

pub fn lone(s: &mut Store, lpn: u16, data: &[u8]) -> u8 {
    lent!(bokuhira_lone, s, data.as_ptr(), data.len(), lpn)
}

pub fn commit(s: &mut Store, id: u32) -> u8 {
    lent!(bokuhira_commit, s, id)
}

pub fn abort(s: &mut Store, id: u32) -> u8 {
    lent!(bokuhira_abort, s, id)
}

pub fn checkpoint(s: &mut Store) -> u8 {
    lent!(bokuhira_checkpoint, s)
}

pub fn reclaim(s: &mut Store) -> u8 {
    lent!(bokuhira_reclaim, s)
}

/// The answer, and where it is 0 the byte of the array at which the 512 bytes begin.
pub fn read(s: &Store, lpn: u16) -> (u8, usize) {
    let mut at = 0;
    let answer = unsafe {
        bokuhira_read(
            s.array.as_ptr(),
            s.array.len(),
            s.map.as_ptr(),
            s.map.len(),
            s.hold.as_ptr(),
            s.hold.len(),
            s.state.as_ptr(),
            s.state.len(),
            &mut at,
            lpn,
        )
    };
    (answer, at)
}

/// The class, and where it is 2 by how much the page is torn.
pub fn class(page: &[u8]) -> (u8, i32) {
    let mut by = 0;
    let class = unsafe { bokuhira_class(page.as_ptr(), page.len(), &mut by) };
    (class, by)
}
