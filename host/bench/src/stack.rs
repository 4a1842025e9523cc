//! How deep a call goes: the stack below it is painted first, and what is no longer paint afterwards was used.
const DEPTH: usize = 192 * 1024;
const GAP: usize = 512;
const PAINT: u8 = 0xA5;

#[inline(never)]
fn here() -> usize {
    let x = 0u8;
    std::hint::black_box(&x) as *const u8 as usize
}

/// The bytes of stack that a call uses.
#[inline(never)]
pub fn used(call: &mut dyn FnMut()) -> usize {
    let top = here() - GAP;
    let bottom = (top - DEPTH) as *mut u8;
    // SAFETY: the thread's stack is larger than DEPTH by far, and nothing lives below the frame of this function while it paints and looks.
    unsafe {
        for i in 0..DEPTH {
            bottom.add(i).write_volatile(PAINT);
        }
        call();
        let mut i = 0;
        while i < DEPTH && bottom.add(i).read_volatile() == PAINT {
            i += 1;
        }
        DEPTH - i + GAP
    }
}
