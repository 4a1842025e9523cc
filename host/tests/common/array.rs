//! Arrays made up page by page; the benchmarks use them too.
use bokuhira::{Geometry, Zones, DATA, PAGE};

/// A page's 528 bytes with these data and spare bytes, made whole.
pub fn whole_page(data: &[u8], spare: &[u8; 14]) -> Vec<u8> {
    let mut page = [data, spare].concat();
    let zeros: u32 = page.iter().map(|b| b.count_zeros()).sum();
    page.extend((zeros as u16).to_le_bytes());
    page
}

/// The 14 bytes of a spare area before Zeros.
pub fn spare(lpn: u16, count: u16, id: u32, version: u32, kind: u8, reserved: u8) -> [u8; 14] {
    let mut s = [0; 14];
    s[..2].copy_from_slice(&lpn.to_le_bytes());
    s[2..4].copy_from_slice(&count.to_le_bytes());
    s[4..8].copy_from_slice(&id.to_le_bytes());
    s[8..12].copy_from_slice(&version.to_le_bytes());
    s[12] = kind;
    s[13] = reserved;
    s
}

/// Page number k becomes these 528 bytes.
pub fn put(array: &mut [u8], k: usize, page: &[u8]) {
    array[k * PAGE..][..PAGE].copy_from_slice(page);
}

/// The data of a zone page.
pub fn zone_data(version: u32, zones: &Zones) -> Vec<u8> {
    let lists = [&zones.available[..], &zones.unavailable, &zones.free];
    let mut data = version.to_le_bytes().to_vec();
    data.push(zones.pointer);
    data.extend(lists.map(|list| list.len() as u8));
    data.extend(lists.concat());
    data.resize(DATA, 0);
    data
}

/// An array with nothing on it but checkpoint 1, of this map, last version and zones.
pub fn checkpointed(g: Geometry, map: &[u16], version: u32, zones: &Zones) -> Vec<u8> {
    let mut array = vec![255; g.array_len()];
    let m = g.map_pages();
    let mut entries: Vec<u8> = map.iter().flat_map(|e| e.to_le_bytes()).collect();
    entries.resize(m * DATA, 255);
    for (i, data) in entries.chunks(DATA).enumerate() {
        put(&mut array, i, &whole_page(data, &spare(i as u16, 0, 0, 1, 1, 0)));
    }
    put(&mut array, m, &whole_page(&zone_data(version, zones), &spare(m as u16, m as u16 + 1, 0, 1, 2, 0)));
    array
}

/// The page numbers in scan order: those of the unavailable blocks, then of the available.
pub fn scan_order(g: Geometry, zones: &Zones) -> Vec<usize> {
    let pages = g.pages as usize;
    zones.unavailable.iter().chain(&zones.available).flat_map(|&b| (0..pages).map(move |q| b as usize * pages + q)).collect()
}
