//! What the tables are made on: geometries and random numbers.
use bokuhira::Geometry;

/// Small, middle and large.
pub const GEOMETRIES: [Geometry; 3] = [Geometry::new(8, 8, 16), Geometry::new(64, 32, 1024), Geometry::new(128, 64, 1024)];

/// A geometry with one plane and with two.
pub fn on_planes(g: Geometry) -> [Geometry; 2] {
    [1, 2].map(|planes| g.with_planes(planes))
}

pub fn name(g: Geometry) -> String {
    let planes = if g.planes == 2 { ", two planes" } else { "" };
    format!("{} × {} × {}{planes}", g.blocks, g.pages, g.logical)
}

pub struct Random(u64);

impl Random {
    pub fn new(seed: u64) -> Random {
        Random(seed.wrapping_mul(0x9E3779B97F4A7C15) | 1)
    }

    pub fn next(&mut self) -> u64 {
        self.0 ^= self.0 << 13;
        self.0 ^= self.0 >> 7;
        self.0 ^= self.0 << 17;
        self.0
    }

    pub fn below(&mut self, n: u64) -> u64 {
        (self.next() >> 16) % n
    }

    pub fn fill(&mut self, bytes: &mut [u8]) {
        bytes.iter_mut().for_each(|b| *b = (self.next() >> 24) as u8);
    }

    pub fn page(&mut self) -> Vec<u8> {
        let mut data = vec![0; bokuhira::DATA];
        self.fill(&mut data);
        data
    }
}
