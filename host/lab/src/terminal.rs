//! The terminal: taken key by key while a line is typed, and put back after it; its width; and Ctrl-C while a command runs.
use std::io::{stdin, stdout, IsTerminal};
use std::sync::atomic::{AtomicBool, Ordering};

/// What Linux' `tcgetattr` fills in, with room to spare.
#[repr(C)]
#[derive(Clone, Copy)]
struct Settings {
    input: u32,
    output: u32,
    control: u32,
    local: u32,
    line: u8,
    bytes: [u8; 32],
    speeds: [u32; 2],
    spare: [u8; 64],
}

/// What Linux' `TIOCGWINSZ` fills in.
#[repr(C)]
struct Size {
    rows: u16,
    columns: u16,
    spare: [u16; 2],
}

extern "C" {
    fn tcgetattr(terminal: i32, settings: *mut Settings) -> i32;
    fn tcsetattr(terminal: i32, when: i32, settings: *const Settings) -> i32;
    fn ioctl(terminal: i32, request: u64, ...) -> i32;
    fn signal(number: i32, handler: extern "C" fn(i32)) -> usize;
}

const INPUT: i32 = 0;
const OUTPUT: i32 = 1;
/// `TCSADRAIN`: once all that was written has been sent.
const WHEN_SENT: i32 = 1;
/// `IXON`: Ctrl-S and Ctrl-Q stop and start the output.
const STOP_AND_START: u32 = 0o2000;
/// `ISIG`, `ICANON`, `ECHO` and `IEXTEN`: keys that end programs, whole lines, the echo, and further keys.
const LINES: u32 = 0o1 | 0o2 | 0o10 | 0o100000;
/// The indices of `VTIME` and `VMIN`: a read waits for one byte, however long.
const TIME: usize = 5;
const LEAST: usize = 6;
/// `TIOCGWINSZ`.
const GET_SIZE: u64 = 0x5413;
/// `SIGINT`, which Ctrl-C sends.
const INTERRUPT: i32 = 2;

/// The terminal handing over each key. It is put back when this is dropped, after an error too.
pub struct Keyed(Settings);

impl Keyed {
    /// None where input and output are not both a terminal that can do it.
    pub fn new() -> Option<Keyed> {
        let able = stdin().is_terminal() && stdout().is_terminal() && std::env::var("TERM").is_ok_and(|t| t != "dumb");
        let mut before = Settings { input: 0, output: 0, control: 0, local: 0, line: 0, bytes: [0; 32], speeds: [0; 2], spare: [0; 64] };
        // SAFETY: `before` is larger than what the call fills in, and lives until it returns.
        if !able || unsafe { tcgetattr(INPUT, &mut before) } != 0 {
            return None;
        }
        let mut keyed = before;
        keyed.input &= !STOP_AND_START;
        keyed.local &= !LINES;
        (keyed.bytes[TIME], keyed.bytes[LEAST]) = (0, 1);
        put(&keyed).then_some(Keyed(before))
    }
}

impl Drop for Keyed {
    fn drop(&mut self) {
        put(&self.0);
    }
}

fn put(settings: &Settings) -> bool {
    // SAFETY: the call only reads the settings, which `tcgetattr` made.
    unsafe { tcsetattr(INPUT, WHEN_SENT, settings) == 0 }
}

/// The columns of the screen; 80 where it does not say.
pub fn width() -> usize {
    let mut size = Size { rows: 0, columns: 0, spare: [0; 2] };
    // SAFETY: this request fills in one `Size`, which lives until the call returns.
    let said = unsafe { ioctl(OUTPUT, GET_SIZE, &mut size) } == 0;
    if said && size.columns > 0 {
        size.columns as usize
    } else {
        80
    }
}

static ASKED: AtomicBool = AtomicBool::new(false);

extern "C" fn ask(_: i32) {
    ASKED.store(true, Ordering::Relaxed);
}

/// From now on Ctrl-C does not end the program; `stop_asked` tells of it.
pub fn catch_interrupts() {
    // SAFETY: the handler only stores into an atomic, which is allowed at any moment.
    unsafe { signal(INTERRUPT, ask) };
}

/// Whether Ctrl-C was pressed since this was asked last.
pub fn stop_asked() -> bool {
    ASKED.swap(false, Ordering::Relaxed)
}
