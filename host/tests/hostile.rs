//! Inputs that no sequence makes: any state bytes, any map, any array, any page, any lengths, on one plane and on two. The proved library and
//! the plain layer, written apart from it, must answer the same and leave the same bytes; a refusal leaves everything as it was.
mod common;

use bokuhira::{Call, Class, Geometry, Kind, Place, Plane, State, Store, Work, Zones, DATA, HOLD, PAGE, STATE, UNMAPPED};
use common::{compare, drop_bytes, formatted, lost_state, put, say, spare, told, whole_page, zone_data, Layer, Met, Rng, LAYERS, NAMES};
use std::collections::BTreeMap;

const PLANES: [Plane; 3] = [Plane::Neither, Plane::Even, Plane::Odd];

/// Worlds and the calls on them, drawn from one seed.
struct Maker {
    rng: Rng,
    met: Met,
    planes: u16,
    /// How many pages of each identifier were made.
    made: BTreeMap<u32, usize>,
}

impl Maker {
    fn new(seed: u64) -> Maker {
        Maker { rng: Rng::new(seed), met: Met::new(), planes: 1, made: BTreeMap::new() }
    }

    /// A call on both layers, from the same world. The world becomes what it leaves.
    fn compare(&mut self, world: &mut Store, call: &Call) -> u8 {
        let answer = compare(world, call);
        self.met.note(call, answer);
        answer
    }

    fn below(&mut self, n: usize) -> usize {
        self.rng.below(n)
    }

    fn geometry(&mut self) -> Geometry {
        let (blocks, pages) = (8 + self.below(7), 8 + self.below(5));
        let most = (blocks - 6) * pages;
        let logical = match self.below(8) {
            0 => 1,
            1 => most,
            _ => 1 + self.below(most),
        };
        Geometry::new(blocks as u16, pages as u16, logical as u16).with_planes(self.planes)
    }

    /// A geometry of two or more map pages.
    fn wide_geometry(&mut self) -> Geometry {
        let (blocks, pages) = (24 + self.below(4), 16 + self.below(8));
        Geometry::new(blocks as u16, pages as u16, 250 + self.below(38) as u16).with_planes(self.planes)
    }

    /// Some of the numbers from..to, each once, in any order.
    fn some_of(&mut self, from: usize, to: usize, most: usize) -> Vec<usize> {
        let mut all: Vec<usize> = (from..to).collect();
        self.rng.shuffle(&mut all);
        all.truncate(self.rng.below(most.min(to - from) + 1));
        all
    }

    /// Zone lists in range.
    fn zones(&mut self, g: Geometry) -> Zones {
        let data = g.blocks as usize - 2;
        let mut blocks: Vec<u8> = self.some_of(2, data + 2, data).into_iter().map(|b| b as u8).collect();
        let mut free = blocks.split_off(self.below(blocks.len() + 1));
        free.sort_unstable();
        let unavailable = blocks.split_off(self.below(blocks.len().min(3) + 1));
        Zones { available: blocks, unavailable, free, pointer: 2 + self.below(data) as u8 }
    }

    /// A map in range.
    fn map(&mut self, g: Geometry) -> Vec<u16> {
        let (from, to) = (2 * g.pages as usize, g.blocks as usize * g.pages as usize);
        let some = self.some_of(from, to, g.logical as usize);
        let mut map: Vec<u16> = some.into_iter().map(|n| n as u16).collect();
        while map.len() < g.logical as usize {
            let at = self.below(map.len() + 1);
            map.insert(at, UNMAPPED);
        }
        map
    }

    fn id(&mut self) -> u32 {
        match self.below(60) {
            0 => u32::MAX,
            1 => u32::MAX - 1,
            2..20 => 0,
            _ => 1 + self.below(12) as u32,
        }
    }

    /// Versions are few, so that some repeat; now and then one of the highest.
    fn version(&mut self) -> u32 {
        match self.below(400) {
            0 => u32::MAX,
            1 => u32::MAX - 1,
            _ => 1 + self.below(500) as u32,
        }
    }

    /// The write number of a page on two planes, else 0: 41 one after the other of an identifier are all different, in no order. Now and then
    /// any.
    fn number(&mut self, id: u32) -> u8 {
        if self.rng.once_in(300) {
            return *self.rng.pick(&[0, 1, 2, 40, 41, 42, 255]);
        }
        if self.planes == 1 || id == 0 {
            return 0;
        }
        let made = self.made.entry(id).or_default();
        *made += 1;
        1 + (17 * *made % 41) as u8
    }

    /// A spare area of a data page; most pass refusal 4.
    fn spare(&mut self, g: Geometry) -> [u8; 14] {
        let lpn = if self.rng.once_in(200) { g.logical } else { self.below(g.logical as usize) as u16 };
        let kind = match self.below(200) {
            0 => self.below(6) as u8,
            1..50 => 3,
            _ => 0,
        };
        let id = self.id();
        let reserved = self.number(id);
        let (count, version) = match self.below(300) {
            0 => (self.below(4) as u16, 0),
            1 => (0, self.version()),
            _ if id == 0 => (1, self.version()),
            n if n % 5 == 0 => (1 + self.below(4) as u16, self.version()),
            _ => (0, 0),
        };
        spare(lpn, count, id, version, kind, reserved)
    }

    /// Any page: whole, torn, erased or any bytes.
    fn page(&mut self, g: Geometry) -> Vec<u8> {
        let byte = self.rng.next() as u8;
        let mut page = whole_page(&[byte; DATA], &self.spare(g));
        match self.below(30) {
            0 => page[self.rng.below(PAGE)] ^= 1 << (byte % 8),
            1 => page.fill(255),
            2 => self.rng.fill(&mut page),
            _ => (),
        }
        page
    }

    /// A complete checkpoint from page k on; some of it is spoilt now and then, and yet whole.
    fn checkpoint(&mut self, world: &mut Store, g: Geometry, k: usize, number: u32) {
        let m = g.map_pages();
        let mut entries: Vec<u8> = self.map(g).into_iter().flat_map(u16::to_le_bytes).collect();
        entries.resize(m * DATA, 255);
        if self.rng.once_in(12) {
            let at = self.below(entries.len());
            entries[at] = self.rng.next() as u8;
        }
        let zones = self.zones(g);
        let mut data = zone_data(self.below(400) as u32, &zones);
        if self.rng.once_in(8) {
            let blocks = zones.available.len() + zones.unavailable.len() + zones.free.len();
            let among = if self.rng.once_in(6) { DATA - 4 } else { 6 + blocks };
            let at = 4 + self.below(among);
            data[at] = self.below(16) as u8;
        }
        for i in 0..=m {
            let (count, kind) = if i == m { (m as u16 + 1, 2) } else { (0, 1) };
            let mut s = spare(i as u16, count, 0, number, kind, 0);
            if self.rng.once_in(25) {
                s[self.rng.below(14)] ^= 1 << self.rng.below(8);
            }
            let mut page = whole_page(if i == m { &data } else { &entries[i * DATA..][..DATA] }, &s);
            if self.rng.once_in(25) {
                page[self.rng.below(PAGE)] ^= 1;
            }
            put(&mut world.array, k + i, &page);
        }
    }

    fn place(&mut self, g: Geometry, id: u32) -> Place {
        // at the limit of write, 41, at what a place has room for, 64, or small
        let count = match self.below(20) {
            0 => 39 + self.below(4),
            1 => 62 + self.below(3),
            _ => self.below(6),
        };
        let (from, to) = (2 * g.pages as usize, g.blocks as usize * g.pages as usize);
        let lpns = (0..count).map(|_| self.below(g.logical as usize) as u16).collect();
        let ppns = (0..count.saturating_sub(1)).map(|_| (from + self.below(to - from)) as u16).collect();
        let drops = (0..count).map(|_| self.rng.once_in(3)).collect();
        Place { id, lpns, ppns, drops }
    }

    /// A state in range, but for the front page of its work under way.
    fn state(&mut self, g: Geometry) -> State {
        let ids = self.some_of(1, 16, 8);
        let mut places: Vec<Place> = ids.into_iter().map(|id| self.place(g, id as u32)).collect();
        while places.len() < 8 {
            let at = self.below(places.len() + 1);
            places.insert(at, Place::default());
        }
        let m = g.map_pages();
        let (kind, first, stride) = match self.below(8) {
            0 => (Kind::Format, 0, 1 + self.below(g.blocks as usize + m)),
            1 => {
                let first = self.below(g.pages as usize - m);
                (Kind::Checkpoint, first, if first == 0 { self.below(m + 1) } else { 1 + self.below(m) })
            }
            2 => (Kind::Reclaim, 0, 0),
            _ => (Kind::Idle, 0, 0),
        };
        let high = |rng: &mut Rng| if rng.once_in(12) { u32::MAX - rng.below(8) as u32 } else { rng.below(500) as u32 };
        State {
            geometry: g,
            zones: self.zones(g),
            version: high(&mut self.rng),
            checkpoint: high(&mut self.rng),
            front: self.below(2) as u8,
            first: first as u8,
            work: Work { kind, stride: stride as u16 },
            last: *self.rng.pick(&PLANES),
            places,
        }
    }

    /// A world made up: blocks filled to any height with any pages, checkpoints on the front, a map and a state in range.
    fn made(&mut self, g: Geometry) -> Store {
        let mut world = Store::blank(g);
        world.array.fill(255);
        let pages = g.pages as usize;
        for b in 2..g.blocks as usize {
            let filled = match self.below(3) {
                0 => 0,
                1 => pages,
                _ => self.below(pages + 1),
            };
            for q in 0..filled {
                let page = self.page(g);
                put(&mut world.array, b * pages + q, &page);
            }
        }
        let mut number = if self.rng.once_in(20) { u32::MAX - 4 } else { self.below(6) as u32 };
        for front in 0..2 {
            let mut at = self.below(2);
            for _ in 0..self.below(4) {
                if at + g.map_pages() < pages {
                    self.checkpoint(&mut world, g, front * pages + at, number);
                }
                at += g.map_pages() + 1;
                number = number.wrapping_add(self.below(3) as u32);
            }
        }
        world.map = self.map(g);
        let state = self.state(g);
        let (stride, blocks) = (state.work.stride as usize, g.blocks as usize);
        let next = match state.work.kind {
            Kind::Format if stride >= blocks => Some(stride - blocks),
            Kind::Checkpoint => Some(state.front as usize * pages + state.first as usize + stride),
            _ => None,
        };
        if let Some(k) = next.filter(|_| !self.rng.once_in(4)) {
            put(&mut world.array, k, &[255; PAGE]);
        }
        world.state = state.encode();
        world
    }

    /// A world that a sequence made.
    fn lived(&mut self, g: Geometry) -> Store {
        let mut world = formatted(g);
        for _ in 0..self.below(160) {
            let call = self.call(&world, g);
            if !matches!(call, Call::Format(_)) || self.rng.once_in(30) {
                // whatever it answers: a refused call leaves the world as it was
                let _ = Layer::Proved.call(&mut world, &call);
            }
        }
        world
    }

    /// Any call, its arguments mostly in range.
    fn call(&mut self, world: &Store, g: Geometry) -> Call {
        let kind = *self.rng.pick(&[0, 1, 2, 2, 3, 3, 3, 4, 4, 5, 5, 5, 5, 6, 6, 7, 8, 9, 9, 9, 10, 10, 10, 10]);
        self.call_of(world, g, kind)
    }

    fn call_of(&mut self, world: &Store, g: Geometry, kind: usize) -> Call {
        let active: Vec<u32> = State::decode(&world.state).map_or(Vec::new(), |s| s.places.iter().map(|p| p.id).filter(|id| *id != 0).collect());
        let id = if active.is_empty() || self.rng.once_in(5) { self.id() } else { *self.rng.pick(&active) };
        let lpn = if self.rng.once_in(30) { self.rng.next() as u16 } else { self.below(g.logical as usize) as u16 };
        let n = if self.rng.once_in(30) { self.below(1030) } else { DATA };
        match kind {
            0 => Call::Format(self.near(g)),
            1 => Call::Recover(self.near(g)),
            2 => Call::Begin(if self.rng.once_in(2) { self.id() } else { 13 + self.below(1000) as u32 }),
            3 => Call::Write { id, lpn, data: self.rng.bytes(n) },
            4 => Call::Drop { id, lpn },
            5 => Call::Lone { lpn, data: self.rng.bytes(n) },
            6 => Call::Commit(id),
            7 => Call::Abort(id),
            8 => Call::Read(lpn),
            9 => Call::Checkpoint,
            _ => Call::Reclaim,
        }
    }

    /// Most often that geometry; else one with a number changed.
    fn near(&mut self, g: Geometry) -> Geometry {
        let edge = *self.rng.pick(&[0, 1, 7, 8, 16, 64, 65, 128, 129, 1024, 1025, u16::MAX]);
        match self.below(40) {
            0 => Geometry { blocks: edge, ..g },
            1 => Geometry { pages: edge, ..g },
            2 => Geometry { logical: edge, ..g },
            3 => Geometry { blocks: g.pages, pages: g.blocks, ..g },
            4 => Geometry { planes: edge, ..g },
            5 | 6 => Geometry { planes: 3 - g.planes, ..g },
            _ => g,
        }
    }

    /// The buffers get the lengths that a geometry asks, unless these are past the largest flash.
    fn fit(&mut self, world: &mut Store, g: Geometry) {
        if g.array_len() <= 129 * 65 * PAGE {
            world.array.resize(g.array_len(), 255);
            world.map.resize(g.logical as usize, UNMAPPED);
        }
    }

    /// Spoils one thing.
    fn spoil(&mut self, world: &mut Store, g: Geometry) {
        match self.below(14) {
            0 => world.state = self.rng.bytes(STATE),
            1 => world.state = lost_state(&mut self.rng),
            2 | 3 => {
                let at = self.below(world.state.len().max(1));
                let byte = if self.rng.once_in(2) { self.below(20) as u8 } else { self.rng.next() as u8 };
                world.state.get_mut(at).into_iter().for_each(|b| *b = byte);
            }
            4 | 5 => self.spoil_field(world),
            6 => self.past_counts(world),
            7 => self.spoil_map(world, g),
            8 => self.spoil_length(world),
            9 => {
                let at = self.below(world.array.len().max(1));
                let bit = 1 << self.below(8);
                world.array.get_mut(at).into_iter().for_each(|b| *b ^= bit);
            }
            10 => self.rng.fill(&mut world.array),
            _ => {
                for _ in 0..1 + self.below(6) {
                    let k = self.below(g.blocks as usize * g.pages as usize);
                    let page = if self.rng.once_in(4) { vec![255; PAGE] } else { self.page(g) };
                    if world.array.len() >= (k + 1) * PAGE {
                        put(&mut world.array, k, &page);
                    }
                }
            }
        }
    }

    /// One field of the state gets a value at the edge of its range, or any. Buffers that fit come with a geometry every second time.
    fn spoil_field(&mut self, world: &mut Store) {
        let Some(mut s) = State::decode(&world.state) else { return };
        let before = s.geometry;
        let byte = *self.rng.pick(&[0, 1, 2, 3, 7, 8, 9, 63, 64, 65, 127, 128, 129, 255]);
        let half = *self.rng.pick(&[0, 1, 2, 7, 8, 9, 15, 16, 17, 64, 65, 127, 128, 129, 1023, 1024, 1025, 8191, 8192, u16::MAX]);
        let word = *self.rng.pick(&[0, 1, 2, 5, 9, u32::MAX - 3, u32::MAX - 2, u32::MAX - 1, u32::MAX]);
        let i = self.below(8);
        match self.below(20) {
            0 => s.geometry.blocks = half,
            1 => s.geometry.pages = half,
            2 => s.geometry.logical = half,
            3 => s.zones.available.push(byte),
            4 => s.zones.unavailable.push(byte),
            5 => s.zones.free.push(byte),
            6 => s.zones.free.reverse(),
            7 => s.zones.pointer = byte,
            8 => s.version = word,
            9 => s.checkpoint = word,
            10 => s.front = byte,
            11 => s.first = byte,
            12 => s.work = Work { kind: *self.rng.pick(&[Kind::Idle, Kind::Format, Kind::Checkpoint, Kind::Reclaim]), stride: half },
            13 => s.places[i].id = word,
            14 => {
                s.places[i].lpns.push(half);
                s.places[i].drops.push(byte == 1);
            }
            15 => s.places[i].drops.iter_mut().for_each(|d| *d = !*d),
            16 => s.geometry.planes = half,
            17 => s.geometry.planes = 1 + s.geometry.planes % 2,
            18 => s.last = *self.rng.pick(&PLANES),
            _ => {
                let k = self.below(s.places[i].ppns.len().max(1));
                s.places[i].ppns.get_mut(k).into_iter().for_each(|ppn| *ppn = half);
            }
        }
        if s.geometry != before && self.rng.once_in(2) {
            self.fit(world, s.geometry);
        }
        world.state = s.encode();
    }

    /// Bytes past a count, which mean nothing, are anything.
    fn past_counts(&mut self, world: &mut Store) {
        if world.state.len() != STATE {
            return;
        }
        for (at, room) in [(8, 3), (12, 126), (139, 126)] {
            let from = at + (world.state[at + room] as usize).min(room);
            self.rng.fill(&mut world.state[from..at + room]);
        }
        for at in (0..8).map(|i| 281 + 325 * i) {
            let count = (world.state[at + 4] as usize).min(64);
            self.rng.fill(&mut world.state[at + 5 + 2 * count..at + 133]);
            self.rng.fill(&mut world.state[at + 133 + 2 * count.saturating_sub(1)..at + 261]);
            // a write or a drop: another byte there is no state's
            world.state[at + 261 + count..at + 325].iter_mut().for_each(|d| *d = self.rng.below(2) as u8);
        }
    }

    fn spoil_map(&mut self, world: &mut Store, g: Geometry) {
        if world.map.is_empty() {
            return;
        }
        let (at, from) = (self.below(world.map.len()), self.below(world.map.len()));
        let last = g.blocks * g.pages;
        world.map[at] = match self.below(5) {
            0 => world.map[from],
            1 => *self.rng.pick(&[0, 2 * g.pages - 1, 2 * g.pages, last - 1, last, UNMAPPED - 1]),
            2 => UNMAPPED,
            3 => self.rng.next() as u16,
            // a map of that geometry, which may be another than the world's by now
            _ => return world.map = self.map(g),
        };
    }

    fn spoil_length(&mut self, world: &mut Store) {
        let other = |rng: &mut Rng, n: usize| *rng.pick(&[0, 1, n.saturating_sub(1), n + 1, n + PAGE, n / 2]);
        match self.below(4) {
            0 => {
                let n = other(&mut self.rng, world.array.len());
                world.array.resize(n, 255);
            }
            1 => {
                let n = other(&mut self.rng, world.map.len());
                world.map.resize(n, UNMAPPED);
            }
            2 => {
                let n = other(&mut self.rng, HOLD);
                world.hold.resize(n, 7);
            }
            _ => {
                let n = other(&mut self.rng, STATE);
                world.state.resize(n, 0);
            }
        }
    }

    /// Every command from one world, then a walk from it. Of a format or recover with another geometry, one with buffers that fit it too.
    fn try_world(&mut self, world: Store, g: Geometry) {
        for kind in 0..NAMES.len() {
            let call = self.call_of(&world, g, kind);
            self.compare(&mut world.clone(), &call);
            if let Call::Format(other) | Call::Recover(other) = call {
                if other != g {
                    let mut fitted = world.clone();
                    self.fit(&mut fitted, other);
                    self.compare(&mut fitted, &call);
                }
            }
        }
        let mut world = world;
        let mut call = self.call(&world, g);
        for _ in 0..10 {
            let answer = self.compare(&mut world, &call);
            if answer != 255 || self.rng.once_in(4) {
                call = self.call(&world, g);
            }
        }
    }
}

#[test]
fn any_input_gives_the_same_on_both_layers() {
    let work = |seed: u64, planes: u16| {
        let mut maker = Maker { planes, ..Maker::new(seed) };
        for round in 0..4_000 {
            let g = if round % 16 == 0 { maker.wide_geometry() } else { maker.geometry() };
            let mut world = if round % 4 == 0 { maker.lived(g) } else { maker.made(g) };
            for _ in 0..[0, 0, 1, 1, 1, 2, 3][maker.below(7)] {
                maker.spoil(&mut world, g);
            }
            maker.try_world(world, g);
        }
        maker.met
    };
    for planes in [1, 2] {
        let mut met = Met::new();
        std::thread::scope(|s| {
            let threads: Vec<_> = (0..2).map(|seed| s.spawn(move || work(seed, planes))).collect();
            threads.into_iter().for_each(|t| met.add(&t.join().expect("a world")));
        });
        say(&format!("hostile, planes {planes}: {} calls agree on both layers; each command's answers, and how often:", met.calls()));
        met.say();
        for command in NAMES {
            assert!(met.times(command, 0) > 0, "{command} was never done");
            assert!(met.times(command, 1) > 0, "{command} never answered bad frame");
        }
        for refusal in 1..=17 {
            assert!(met.in_all(refusal) > 0, "refusal {refusal} was never met");
        }
    }
}

/// Pages near whole ones, and of any bytes and any length: both layers class them alike, and each class is met, torn above and below 0.
#[test]
fn any_page_has_one_class_on_both_layers() {
    let mut maker = Maker::new(23);
    let g = Geometry::new(8, 8, 16);
    let (mut erased, mut whole, mut above, mut below, mut none) = (0, 0, 0, 0, 0);
    for _ in 0..20_000 {
        let mut page = maker.page(g);
        match maker.below(5) {
            0 => page[526..].copy_from_slice(&(maker.below(4_300) as u16).to_le_bytes()),
            1 => page[maker.below(PAGE)] = maker.below(256) as u8,
            2 => page.resize(*maker.rng.pick(&[0, DATA, PAGE - 1, PAGE, PAGE + 1]), 0xFF),
            _ => (),
        }
        let class = Layer::Proved.class(&page);
        assert_eq!(Layer::Plain.class(&page), class, "{page:?}");
        *match class {
            Some(Class::Erased) => &mut erased,
            Some(Class::Whole) => &mut whole,
            Some(Class::Torn(1..)) => &mut above,
            Some(Class::Torn(_)) => &mut below,
            None => &mut none,
        } += 1;
    }
    say(&format!("hostile: {erased} erased pages, {whole} whole, {above} torn above 0, {below} below 0, {none} of another length"));
    assert!([erased, whole, above, below, none].iter().all(|n| *n > 100));
}

/// Each bound of the geometry, with array, map and hold of the lengths that it asks: 1 on the one side; on the other a format begins, and zero
/// bytes have no checkpoint. What holds of the arguments of format and recover holds of the geometry in a state.
#[test]
fn the_bounds_of_the_geometry_with_buffers_that_fit() {
    let inside = [(8, 8, 16), (128, 8, 16), (8, 64, 128), (8, 8, 1), (22, 64, 1024), (23, 64, 1024), (128, 64, 1024), (9, 8, 24), (9, 8, 23)];
    let outside = [(7, 8, 8), (129, 8, 16), (8, 7, 14), (8, 65, 130), (8, 65, 16), (8, 8, 0), (23, 64, 1025), (128, 64, 1025)];
    let past_the_reserve = [(8, 8, 17), (8, 8, 24), (9, 8, 25), (9, 8, 32), (21, 64, 961)];
    let on = |planes: &[u16], sizes: &[(u16, u16, u16)]| -> Vec<Geometry> {
        sizes.iter().flat_map(|&(b, p, l)| planes.iter().map(move |n| Geometry::new(b, p, l).with_planes(*n))).collect()
    };
    let mut maker = Maker::new(17);
    for g in on(&[1, 2], &inside) {
        let blank = Store::blank(g);
        assert_eq!(maker.compare(&mut blank.clone(), &Call::Recover(g)), 2, "{g:?}");
        assert_eq!(maker.compare(&mut blank.clone(), &Call::Format(g)), 255, "{g:?}");
        let live = formatted(g);
        assert_eq!(maker.compare(&mut live.clone(), &Call::Recover(g)), 0, "{g:?}");
        assert_eq!(maker.compare(&mut live.clone(), &Call::Begin(5)), 0, "{g:?}");
        assert_eq!(maker.compare(&mut live.clone(), &Call::Lone { lpn: g.logical - 1, data: vec![7; DATA] }), 0, "{g:?}");
        for change in 0..6 {
            let mut w = live.clone();
            match change {
                0 => w.array.push(255),
                1 => w.array.truncate(g.array_len() - 1),
                2 => w.map.push(UNMAPPED),
                3 => w.map.truncate(g.logical as usize - 1),
                4 => w.hold.push(0),
                _ => w.hold.truncate(HOLD - 1),
            }
            for call in [Call::Recover(g), Call::Format(g), Call::Begin(5)] {
                assert_eq!(maker.compare(&mut w, &call), 1, "{call:?} of {g:?} with length {change} changed");
            }
        }
    }
    for g in [on(&[1, 2], &outside), on(&[1, 2], &past_the_reserve), on(&[0, 3, 255, 257, u16::MAX], &inside[..2])].concat() {
        let mut w = Store::blank(g);
        w.map.fill(UNMAPPED);
        let mut state = State::decode(&formatted(Geometry::new(8, 8, 16)).state).expect("a state");
        (state.geometry, state.zones.free) = (g, vec![5, 6]);
        w.state = state.encode();
        for call in [Call::Recover(g), Call::Format(g)] {
            assert_eq!(maker.compare(&mut w, &call), 1, "{call:?}");
        }
        for kind in 2..NAMES.len() {
            let call = maker.call_of(&w, Geometry::new(8, 8, 1), kind);
            assert_eq!(maker.compare(&mut w, &call), 1, "{call:?} on a state of {g:?}");
        }
    }
}

/// After power-up anything stands in the state's bytes. Recover takes any of them and gives the same, on both layers; so does format, but
/// for bytes that say a format of this geometry is under way. The other commands refuse those that encode no state.
#[test]
fn any_state_will_do_at_power_up() {
    let g = Geometry::new(8, 8, 16);
    let mut rng = Rng::new(13);
    let mut live = formatted(g);
    assert_eq!(Layer::Proved.call(&mut live, &Call::Lone { lpn: 3, data: vec![7; DATA] }), 0);
    let mut recovered = live.clone();
    assert_eq!(Layer::Proved.call(&mut recovered, &Call::Recover(g)), 0);
    let mut begun = Store { state: vec![0; STATE], ..live.clone() };
    assert_eq!(Layer::Proved.call(&mut begun, &Call::Format(g)), 255);
    assert_eq!(State::decode(&begun.state).map(|s| s.work), Some(Work { kind: Kind::Format, stride: 1 }));
    let (mut strange, mut known) = (0, 0);
    for _ in 0..1000 {
        let state = lost_state(&mut rng);
        let dark = Store { state, map: vec![rng.next() as u16; 16], ..live.clone() };
        strange += State::decode(&dark.state).is_none() as usize;
        known += State::decode(&dark.state).is_some_and(|s| s.work.kind == Kind::Format) as usize;
        let mut maker = Maker::new(rng.next());
        for layer in LAYERS {
            let mut w = dark.clone();
            assert_eq!(layer.call(&mut w, &Call::Recover(g)), 0);
            assert!(w == recovered, "{layer:?}: a recover that hangs on the state: {}", told(&dark));
            let mut w = dark.clone();
            assert_eq!(layer.call(&mut w, &Call::Format(g)), 255);
            assert!(w == begun, "{layer:?}: a format's first stride that hangs on the state: {}", told(&dark));
            for kind in (2..NAMES.len()).filter(|_| State::decode(&dark.state).is_none()) {
                let call = maker.call_of(&dark, g, kind);
                let mut w = dark.clone();
                assert_eq!(layer.call(&mut w, &call), 1, "{layer:?}: {call:?} on bytes that encode no state");
                assert!(w == dark, "{layer:?}: {call:?} was refused and changed something");
            }
        }
    }
    assert!(strange > 400 && known > 50, "{strange} of 1000 encode no state, {known} a format of another geometry");

    // a format of this geometry: gone on with, or out of range, where stride 9 is to program a page that is not erased
    for (stride, answer) in [(0, 1), (3, 255), (9, 1), (200, 1)] {
        let mut state = State::decode(&begun.state).expect("a state");
        state.work.stride = stride;
        let dark = Store { state: state.encode(), ..live.clone() };
        for layer in LAYERS {
            let mut w = dark.clone();
            assert_eq!(layer.call(&mut w, &Call::Format(g)), answer, "{layer:?}: a format with {stride} strides done");
            let next = if answer == 1 { stride } else { stride + 1 };
            assert_eq!(State::decode(&w.state).map(|s| s.work.stride), Some(next), "{layer:?}");
        }
    }
}

/// The plane of the last data block page is a byte, 0 to 2; with any other the bytes encode no state. On one plane it is not looked at, and
/// stays.
#[test]
fn the_last_plane_is_one_of_three() {
    let mut maker = Maker::new(280);
    for g in [1, 2].map(|planes| Geometry::new(8, 8, 16).with_planes(planes)) {
        let mut live = formatted(g);
        for call in [Call::Begin(5), Call::Write { id: 5, lpn: 4, data: vec![7; DATA] }] {
            assert_eq!(Layer::Proved.call(&mut live, &call), 0);
        }
        for byte in 0..=255 {
            live.state[280] = byte;
            assert_eq!(State::decode(&live.state).map(|s| s.last), PLANES.get(byte as usize).copied());
            for call in [Call::Lone { lpn: 3, data: vec![9; DATA] }, Call::Write { id: 5, lpn: 4, data: vec![8; DATA] }, Call::Commit(5)] {
                let mut w = live.clone();
                assert_eq!(maker.compare(&mut w, &call), if byte > 2 { 1 } else { 0 }, "{call:?}, byte {byte}");
                // the first page is one of block 2, of the even plane; after an even one of block 3
                let first = if g.planes == 2 && byte == 1 { 24 } else { 16 };
                assert_eq!(w.array[first * PAGE..][..PAGE] == [255; PAGE], byte > 2, "{call:?}, byte {byte}");
                let due = [byte, 1 + (first / 8 % 2) as u8][usize::from(g.planes == 2 && byte <= 2)];
                assert_eq!(w.state[280], due, "{call:?}, byte {byte}");
            }
        }
    }
}

/// Of each page that a place has room for, whether it is a drop is a byte, 0 or 1. With any other in any of the 8 × 64, past a count too, the
/// bytes encode no state: every command answers 1, but for recover, and for format, which then begins anew.
#[test]
fn a_page_is_a_write_or_a_drop() {
    let g = Geometry::new(8, 8, 16);
    let mut rng = Rng::new(261);
    let mut maker = Maker::new(325);
    let mut live = formatted(g);
    for call in [Call::Begin(5), Call::Drop { id: 5, lpn: 3 }, Call::Write { id: 5, lpn: 4, data: vec![7; DATA] }] {
        assert_eq!(Layer::Proved.call(&mut live, &call), 0);
    }
    assert_eq!(drop_bytes(&mut live.state).map(|d| *d as usize).sum::<usize>(), 1, "one page of the place is a drop");
    let mut recovered = live.clone();
    assert_eq!(Layer::Proved.call(&mut recovered, &Call::Recover(g)), 0);
    let mut begun = Store { state: vec![0; STATE], ..live.clone() };
    assert_eq!(Layer::Proved.call(&mut begun, &Call::Format(g)), 255);
    for n in 0..8 * 64 {
        let mut odd = live.clone();
        if n % 2 == 0 {
            // three strides of a format done: not gone on with where the bytes are no state
            (odd.state[277], odd.state[278]) = (1, 3);
        }
        *drop_bytes(&mut odd.state).nth(n).expect("a page") = 2 + rng.below(254) as u8;
        assert_eq!(State::decode(&odd.state), None, "byte {n}");
        for kind in 2..NAMES.len() {
            let call = maker.call_of(&odd, g, kind);
            assert_eq!(maker.compare(&mut odd.clone(), &call), 1, "{call:?}, byte {n}");
        }
        for (call, answer, due) in [(Call::Recover(g), 0, &recovered), (Call::Format(g), 255, &begun)] {
            let mut w = odd.clone();
            assert_eq!(maker.compare(&mut w, &call), answer, "{call:?}, byte {n}");
            assert!(w == *due, "{call:?} that hangs on byte {n}: {}", told(&w));
        }
    }
}
