//! Classing, programming and erasing pages: the proved functions of `page`, and the classing of `table`, by which recovery counts (linked from
//! libpageffi.a), beside plain Rust that does the same job, over 4 MB of erased, random and whole pages.
use crate::setup::Random;
use crate::table::Table;
use std::hint::black_box;
use std::time::Instant;

const PAGE: usize = 528;
const BLOCK: usize = 64 * PAGE;
const PAGES: usize = 7936; // 124 blocks of 64 pages: 4.19 MB
const ROUNDS: usize = 201;

extern "C" {
    fn pageffi_class(page: *const u8, len: usize) -> u8;
    fn pageffi_class_by_table(page: *const u8, len: usize) -> u8;
    fn pageffi_program(page: *mut u8, len: usize, data: *const u8, data_len: usize, lpn: u16, cnt: u16, id: u32, ver: u32);
    fn pageffi_erase(block: *mut u8, len: usize);
}

fn class_proved(page: &[u8]) -> u8 {
    unsafe { pageffi_class(page.as_ptr(), page.len()) }
}

fn class_by_table(page: &[u8]) -> u8 {
    unsafe { pageffi_class_by_table(page.as_ptr(), page.len()) }
}

fn program_proved(page: &mut [u8], data: &[u8], lpn: u16, cnt: u16, id: u32, ver: u32) {
    unsafe { pageffi_program(page.as_mut_ptr(), page.len(), data.as_ptr(), data.len(), lpn, cnt, id, ver) }
}

fn erase_proved(block: &mut [u8]) {
    unsafe { pageffi_erase(block.as_mut_ptr(), block.len()) }
}

// ---- plain Rust, byte by byte
fn zeros_bytes(page: &[u8]) -> u32 {
    page[..526].iter().map(|b| b.count_zeros()).sum()
}

#[inline(never)]
fn class_bytes(page: &[u8]) -> u8 {
    if page.len() != PAGE {
        return 3;
    }
    if page.iter().all(|&b| b == 0xFF) {
        return 0;
    }
    if zeros_bytes(page) == u16::from_le_bytes([page[526], page[527]]) as u32 {
        1
    } else {
        2
    }
}

// ---- plain Rust, word by word
fn word(c: &[u8]) -> u64 {
    u64::from_le_bytes(c.try_into().unwrap())
}

fn zeros_words(page: &[u8]) -> u32 {
    let words: u32 = page[..520].chunks_exact(8).map(|c| word(c).count_zeros()).sum();
    let rest: u32 = page[520..526].iter().map(|b| b.count_zeros()).sum();
    words + rest
}

#[inline(never)]
fn class_words(page: &[u8]) -> u8 {
    if page.len() != PAGE {
        return 3;
    }
    if page.chunks_exact(8).all(|c| word(c) == u64::MAX) {
        return 0;
    }
    if zeros_words(page) == u16::from_le_bytes([page[526], page[527]]) as u32 {
        1
    } else {
        2
    }
}

// the same in one pass
#[inline(never)]
fn class_once(page: &[u8]) -> u8 {
    if page.len() != PAGE {
        return 3;
    }
    let n = zeros_words(page);
    let stored = u16::from_le_bytes([page[526], page[527]]) as u32;
    if n == 0 && stored == 0xFFFF {
        return 0;
    }
    if n == stored {
        1
    } else {
        2
    }
}

// the first word, then what all words have in common
#[inline(never)]
fn class_common(page: &[u8]) -> u8 {
    if page.len() != PAGE {
        return 3;
    }
    if word(&page[..8]) == u64::MAX && page.chunks_exact(8).fold(u64::MAX, |c, w| c & word(w)) == u64::MAX {
        return 0;
    }
    if zeros_words(page) == u16::from_le_bytes([page[526], page[527]]) as u32 {
        1
    } else {
        2
    }
}

fn spare(page: &mut [u8], lpn: u16, cnt: u16, id: u32, ver: u32) {
    page[512..514].copy_from_slice(&lpn.to_le_bytes());
    page[514..516].copy_from_slice(&cnt.to_le_bytes());
    page[516..520].copy_from_slice(&id.to_le_bytes());
    page[520..524].copy_from_slice(&ver.to_le_bytes());
    page[524] = 0;
    page[525] = 0;
}

#[inline(always)]
fn program(page: &mut [u8], data: &[u8], lpn: u16, cnt: u16, id: u32, ver: u32, zeros: fn(&[u8]) -> u32) {
    if page.len() != PAGE || data.len() != 512 {
        return;
    }
    page[..512].copy_from_slice(data);
    spare(page, lpn, cnt, id, ver);
    let z = zeros(page) as u16;
    page[526..].copy_from_slice(&z.to_le_bytes());
}

#[inline(never)]
fn program_bytes(page: &mut [u8], data: &[u8], lpn: u16, cnt: u16, id: u32, ver: u32) {
    program(page, data, lpn, cnt, id, ver, zeros_bytes);
}

#[inline(never)]
fn program_words(page: &mut [u8], data: &[u8], lpn: u16, cnt: u16, id: u32, ver: u32) {
    program(page, data, lpn, cnt, id, ver, zeros_words);
}

#[inline(never)]
fn erase_fill(block: &mut [u8]) {
    block.fill(0xFF);
}

#[inline(never)]
fn erase_loop(block: &mut [u8]) {
    for b in block.iter_mut() {
        *b = 0xFF;
    }
}

// ---- pages
fn classes(array: &[u8], f: impl Fn(&[u8]) -> u8) -> [u32; 4] {
    let mut n = [0; 4];
    for page in array.chunks_exact(PAGE) {
        n[f(black_box(page)) as usize] += 1;
    }
    n
}

fn programs(array: &mut [u8], data: &[u8], f: impl Fn(&mut [u8], &[u8], u16, u16, u32, u32)) {
    for (k, page) in array.chunks_exact_mut(PAGE).enumerate() {
        let d = &data[k % 64 * 512..k % 64 * 512 + 512];
        f(black_box(page), black_box(d), k as u16, 1, 77, k as u32);
    }
}

fn erases(array: &mut [u8], f: impl Fn(&mut [u8])) {
    for block in array.chunks_exact_mut(BLOCK) {
        f(black_box(block));
    }
}

type Way<'a> = Box<dyn FnMut() + 'a>;

// The least time of each of several ways, in nanoseconds a page, taken in turn.
fn least(ways: &mut [Way]) -> Vec<f64> {
    let mut best = vec![f64::MAX; ways.len()];
    for _ in 0..ROUNDS {
        for (way, best) in ways.iter_mut().zip(&mut best) {
            let t = Instant::now();
            way();
            *best = best.min(t.elapsed().as_nanos() as f64 / PAGES as f64);
        }
    }
    best
}

// One line: the proved way is the first; it is compared with the fastest of the others.
fn line(table: &mut Table, what: &str, mut ways: Vec<Way>) {
    let best = least(&mut ways);
    let plain = best[1..].iter().copied().fold(f64::MAX, f64::min);
    table.line(what, [best[0], plain], None);
}

const CLASSES: [fn(&[u8]) -> u8; 5] = [class_proved, class_bytes, class_words, class_once, class_common];
const BY_TABLE: [fn(&[u8]) -> u8; 5] = [class_by_table, class_bytes, class_words, class_once, class_common];
const PROGRAMS: [fn(&mut [u8], &[u8], u16, u16, u32, u32); 3] = [program_proved, program_bytes, program_words];
const ERASES: [fn(&mut [u8]); 3] = [erase_proved, erase_fill, erase_loop];

/// The table of pages, in nanoseconds a page.
pub fn run(table: &mut Table) {
    let mut random = Random::new(1);
    let mut data = vec![0u8; 64 * 512];
    random.fill(&mut data);
    let erased = vec![0xFFu8; PAGES * PAGE];
    let mut noise = vec![0u8; PAGES * PAGE];
    random.fill(&mut noise);
    let mut whole = erased.clone();
    programs(&mut whole, &data, program_words);

    // every way does the same
    let arrays = [("erased", &erased), ("random", &noise), ("whole", &whole)];
    for (name, array) in arrays {
        let n = classes(array, class_bytes);
        assert!(CLASSES.iter().chain(&BY_TABLE).all(|f| classes(array, f) == n), "{name}");
    }
    for (program, erase) in PROGRAMS.into_iter().zip(ERASES) {
        let mut again = noise.clone();
        programs(&mut again, &data, program);
        assert!(again == whole);
        erases(&mut again, erase);
        assert!(again == erased);
    }

    for (what, ways) in [("class", CLASSES), ("class by the table", BY_TABLE)] {
        for (name, array) in arrays {
            let way = |f| -> Way {
                Box::new(move || {
                    black_box(classes(array, f));
                })
            };
            line(table, &format!("{what}, {name} pages"), ways.into_iter().map(way).collect());
        }
    }
    let program = |f| -> Way {
        let (mut array, data) = (erased.clone(), &data);
        Box::new(move || programs(&mut array, data, f))
    };
    line(table, "program", PROGRAMS.into_iter().map(program).collect());
    let erase = |f| -> Way {
        let mut array = noise.clone();
        Box::new(move || erases(&mut array, f))
    };
    line(table, "erase", ERASES.into_iter().map(erase).collect());
}
