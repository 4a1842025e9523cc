//! Files: read and written with an error in words; and dumps of an array, bytes alone or with the three lines of report before them.
use crate::{words::plural, world::World};
use bokuhira::{Geometry, DATA};
use std::{fs::File, io::Read};

/// The largest array that the lab has room for, and the three lines of report at their longest.
pub const ROOM: usize = 64 << 20;
const LINES: usize = 64;

pub fn write(file: &str, bytes: &[u8]) -> Result<(), String> {
    std::fs::write(file, bytes).map_err(|e| format!("'{file}' cannot be written: {e}"))
}

/// A file of at most the lab's largest array with its lines before it.
pub fn read(file: &str) -> Result<Vec<u8>, String> {
    let mut bytes = Vec::new();
    let most = ROOM + LINES;
    let read = File::open(file).and_then(|f| f.take(most as u64 + 1).read_to_end(&mut bytes));
    match read.map_err(|e| format!("'{file}' cannot be read: {e}"))? {
        n if n > most => Err(format!("'{file}' is too long: the lab has room for {most} bytes")),
        _ => Ok(bytes),
    }
}

/// The array of a world as a dump; `raw` leaves the lines out.
pub fn dump(world: &World, raw: bool) -> Vec<u8> {
    let g = world.geometry;
    let lines = if raw { String::new() } else { format!("blocks={}\npages={}\nlogical={}\n", g.blocks, g.pages, g.logical) };
    [lines.as_bytes(), &world.store.array].concat()
}

/// A dump: the bytes of an array, maybe with the three lines of report before them. A geometry that is given counts, whatever the lines say.
pub fn image(file: &str, geometry: Option<Geometry>) -> Result<(Geometry, Vec<u8>), String> {
    let bytes = read(file)?;
    let (g, array) = match (geometry, with_lines(&bytes)) {
        (given, Some((said, array))) => (given.unwrap_or(said), array),
        (Some(given), None) => (given, &bytes[..]),
        (None, None) => {
            return Err(format!("'{file}' does not begin with blocks=, pages= and logical=: give the numbers, as in: import {file} 8 8 16"))
        }
    };
    if (g.blocks as usize) < 2 || g.pages == 0 || array.len() != g.array_len() {
        let hint = match array.len() {
            n if n == g.blocks as usize * g.pages as usize * DATA => " (512 bytes a page: the spare areas are missing)",
            n if n < g.array_len() => " (cut short?)",
            _ => "",
        };
        return Err(format!(
            "'{file}' has {} of array, and {} of {} are {}{hint}",
            plural(array.len(), "byte"),
            plural(g.blocks as usize, "block"),
            plural(g.pages as usize, "page"),
            g.array_len()
        ));
    }
    Ok((g, array.to_vec()))
}

fn with_lines(bytes: &[u8]) -> Option<(Geometry, &[u8])> {
    let mut rest = bytes;
    let mut numbers = [0u16; 3];
    for (name, number) in ["blocks=", "pages=", "logical="].iter().zip(&mut numbers) {
        let end = rest.iter().position(|b| *b == b'\n')?;
        *number = std::str::from_utf8(&rest[..end]).ok()?.strip_prefix(name)?.parse().ok()?;
        rest = &rest[end + 1..];
    }
    Some((Geometry::new(numbers[0], numbers[1], numbers[2]), rest))
}
