//! For the tests: numbers that look drawn by lot, and with them calls, stores that calls made, and stores spoilt past all that the layer
//! makes.
use crate::{
    data::seeded,
    pages::{whole_page, Page},
};
use bokuhira::{Answer, Call, Geometry, Kind, Place, State, Store, DATA, PAGE, UNMAPPED};
use std::collections::HashSet;

pub struct Lot(pub u64);

impl Lot {
    /// A number below n, by splitmix64.
    pub fn below(&mut self, n: u64) -> u64 {
        self.0 = self.0.wrapping_add(0x9e3779b97f4a7c15);
        let x = (self.0 ^ self.0 >> 30).wrapping_mul(0xbf58476d1ce4e5b9);
        let x = (x ^ x >> 27).wrapping_mul(0x94d049bb133111eb);
        (x ^ x >> 31) % n
    }

    fn pick<T: Copy>(&mut self, from: &[T]) -> T {
        from[self.below(from.len() as u64) as usize]
    }

    /// A small geometry, of one plane or two; once in six one of two map pages.
    pub fn geometry(&mut self) -> Geometry {
        let g = match self.below(6) {
            0 => Geometry::new(24, 16, 250 + self.below(38) as u16),
            _ => Geometry::new(8 + self.below(4) as u16, 8 + self.below(3) as u16, 10 + self.below(7) as u16),
        };
        g.with_planes(1 + self.below(2) as u16)
    }

    pub fn call(&mut self, logical: u16) -> Call {
        let (id, lpn) = (self.below(40) as u32 + 1, self.below(logical as u64) as u16);
        let data = seeded(self.below(256));
        match self.below(16) {
            0..=2 => Call::Begin(id),
            3..=6 => Call::Write { id, lpn, data },
            7 => Call::Drop { id, lpn },
            8 => Call::Lone { lpn, data },
            9..=11 => Call::Commit(id),
            12 => Call::Abort(id),
            13 | 14 => Call::Checkpoint,
            _ => Call::Reclaim,
        }
    }

    /// A store after a format and calls; the last of them may be under way.
    pub fn lived(&mut self, g: Geometry) -> Store {
        let mut store = Store::blank(g);
        let strides = if self.below(12) > 0 { usize::MAX } else { self.below(g.blocks as u64 + 3) as usize };
        let unfinished = (0..strides).map(|_| store.format(g)).find(|a| *a != Answer::More).is_none();
        let mut under_way = None;
        for _ in 0..if unfinished { 0 } else { self.below(160) } {
            let call = under_way.take().unwrap_or_else(|| self.call(g.logical));
            if store.call(&call) == Answer::More {
                under_way = Some(call);
            }
        }
        store
    }

    /// Spoils one thing on the array.
    pub fn spoil_array(&mut self, g: Geometry, store: &mut Store) {
        let p = g.pages as u64;
        match self.below(11) {
            0..=3 => {
                let page = self.page(g);
                let k = (2 * p + self.below(3 * p)) as usize;
                store.array[k * PAGE..(k + 1) * PAGE].copy_from_slice(&page);
            }
            4..=7 => {
                let k = self.below(2 * p) as usize;
                self.spoil_front(g, &mut store.array, k);
            }
            8 => {
                let at = self.below(store.array.len() as u64) as usize;
                store.array[at] ^= 1 << self.below(8);
            }
            9 => {
                // the first checkpoint again at the head of block 1; or moved to the end of its block, or past that
                let (p, m) = (g.pages as usize, g.map_pages());
                let (len, to) = ((m + 1) * PAGE, self.pick(&[p, p, p - m - 1, p - m]));
                store.array.copy_within(..len, to * PAGE);
                if to < p {
                    store.array[..len].fill(0xFF);
                }
            }
            _ => {
                let at = self.below(2) as usize * g.pages as usize * PAGE;
                store.array[at..at + g.pages as usize * PAGE].fill(0xFF);
            }
        }
    }

    /// A whole data page, its fields at the edges of what refusal 4 lets pass.
    fn page(&mut self, g: Geometry) -> Vec<u8> {
        let lpn = if self.below(12) > 0 { self.below(g.logical as u64) as u16 } else { g.logical };
        let id = self.pick(&[0, 0, 1, 2, 3, 3, 0xFFFF_FFFE, 0xFFFF_FFFF]);
        let (cnt, ver) = match self.below(12) {
            0 => (self.below(3) as u16, 0),
            1 => (0, 1),
            2..=7 => (1, self.pick(&[1, 2, 3, 4, 5, 500, 0xFFFF_FFFF])),
            8 => (2, 7),
            _ => (0, 0),
        };
        let kind = self.pick(&[0, 0, 0, 0, 0, 3, 3, 3, 1, 2, 4]);
        let number = if g.planes == 2 && id != 0 { 1 + self.below(6) as u8 } else { 0 };
        let reserved = self.pick(&[number, number, number, number, number, number, number, 0, 1, 2, 42]);
        whole_page(&[7; DATA], lpn, cnt, id, ver, kind, reserved)
    }

    /// A front page with a number changed: most often it is whole after it.
    fn spoil_front(&mut self, g: Geometry, array: &mut [u8], k: usize) {
        let bytes = &mut array[k * PAGE..(k + 1) * PAGE];
        let mut f = Page::read(bytes);
        if !f.is_whole() {
            return;
        }
        let last = g.blocks * g.pages - 1;
        match (f.kind, self.below(8)) {
            (_, 0) => f.ver += 1,
            (_, 1) => (f.lpn, f.cnt) = (f.lpn + 1, f.cnt + 1),
            (_, 2) => bytes[self.below(DATA as u64) as usize] ^= 1,
            (1, n) => {
                let i = if n < 5 { self.below(256) } else { self.below(g.logical.min(256) as u64) } as usize;
                let entry = self.pick(&[0, 2 * g.pages - 1, 2 * g.pages, 2 * g.pages, last, last + 1, UNMAPPED, UNMAPPED - 1]);
                bytes[2 * i..2 * i + 2].copy_from_slice(&entry.to_le_bytes());
            }
            (_, 3) => bytes[4] = self.below(14) as u8,
            (_, 4) => (bytes[5], bytes[7]) = (bytes[5] + 1, bytes[7].saturating_sub(1)),
            (_, 5) => {
                let listed = 8 + bytes[5..8].iter().map(|n| *n as usize).sum::<usize>();
                bytes[..DATA].swap(listed.min(DATA) - 1, listed.min(DATA) - 2);
            }
            (_, n) => {
                let at = if n < 7 { 5 + self.below(2 + g.blocks as u64) } else { 4 + self.below(DATA as u64 - 4) };
                bytes[at as usize] = self.below(14) as u8;
            }
        }
        if self.below(4) > 0 {
            let page = whole_page(&bytes[..DATA], f.lpn, f.cnt, f.id, f.ver, f.kind, f.reserved);
            bytes.copy_from_slice(&page);
        }
    }

    /// Spoils one thing beside the array: a length, the map, or the state.
    pub fn spoil_frame(&mut self, g: Geometry, store: &mut Store) {
        match self.below(12) {
            0 => {
                let cut = self.below(3) as usize;
                let buffers = [&mut store.array, &mut store.hold, &mut store.state];
                buffers.into_iter().nth(cut).into_iter().for_each(|b| b.truncate(b.len().saturating_sub(1)));
            }
            1 => store.map.truncate(self.below(g.logical as u64) as usize),
            2 | 3 if !store.map.is_empty() => {
                let at = self.below(store.map.len() as u64) as usize;
                store.map[at] = self.pick(&[0, 2 * g.pages - 1, 2 * g.pages, 2 * g.pages, g.blocks * g.pages]);
            }
            4 if store.state.len() > 300 => {
                let at = self.pick(&[11, 138, 265, 266, 275, 276, 277, 278, 280, 281 + 4, 281 + 5, 281 + 133, 281 + 261, 281 + 325 + 324]);
                store.state[at] = self.pick(&[0, 1, 2, 3, 4, 5, 9, 65, 127, 255]);
            }
            _ => self.spoil_state(g, store),
        }
    }

    fn spoil_state(&mut self, g: Geometry, store: &mut Store) {
        let Some(mut s) = State::decode(&store.state) else { return };
        let (byte, half) = (self.pick(&[0, 1, 2, 3, 5, 7, 8, 9, 127]), self.pick(&[0, 1, 7, 8, 9, 10, 64, 65, 129, 1025]));
        let i = self.below(8) as usize;
        match self.below(17) {
            16 => s.geometry.planes = self.pick(&[0, 1, 2, 3, 257]),
            0 => s.geometry.blocks = half,
            1 => s.geometry.pages = half,
            2 => s.geometry.logical = half,
            3 => s.zones.available.push(byte),
            4 => {
                s.zones.free.pop();
                s.zones.unavailable.push(byte);
            }
            5 => s.zones.free.reverse(),
            6 => s.zones.pointer = byte,
            7 => (s.front, s.first) = (self.pick(&[0, 0, 1, 2]), self.pick(&[0, 0, 0, 1, 7, 9])),
            8..=11 => {
                let m = g.map_pages() as u16;
                s.work.kind = self.pick(&[Kind::Format, Kind::Checkpoint]);
                s.work.stride = self.pick(&[0, 1, m, m + 1, g.blocks - 1, g.blocks, g.blocks + m, g.blocks + m + 1]);
                s.first = self.pick(&[0, 0, 3, g.pages - m - 1, g.pages - m]) as u8;
            }
            12 => s.places[i].id = self.pick(&[0, 1, 2, 0xFFFF_FFFF]),
            _ => {
                let (lpn, ppn) = (self.pick(&[0, 0, g.logical]), self.pick(&[2 * g.pages, 2 * g.pages, 2 * g.pages - 1]));
                let pages = self.pick(&[1, 2, 41, 42, 64, 65]);
                let drop = self.below(2) == 0;
                s.places[i] = Place { id: self.pick(&[0, 1, 2, 3]), lpns: vec![lpn; pages], ppns: vec![ppn; pages - 1], drops: vec![drop; pages] };
            }
        }
        store.state = s.encode();
    }
}

/// A text with every number in it written as #.
pub fn form(text: &str) -> String {
    let mut form = String::new();
    for c in text.chars() {
        match c {
            '0'..='9' if form.ends_with('#') => (),
            '0'..='9' => form.push('#'),
            c => form.push(c),
        }
    }
    form
}

/// That each of these phrases stands in one of the forms that were met.
pub fn all_met(met: &HashSet<String>, phrases: &[&str]) {
    let missing: Vec<&&str> = phrases.iter().filter(|p| !met.iter().any(|form| form.contains(**p))).collect();
    assert!(missing.is_empty(), "not met: {missing:?}\nmet: {met:#?}");
}
