//! The program itself: its arguments, its output, and lines that make no sense.
use std::{
    ffi::OsStr,
    fs::OpenOptions,
    io::Write,
    os::unix::ffi::OsStrExt,
    process::{Command, Output, Stdio},
};

fn lab() -> Command {
    Command::new(env!("CARGO_BIN_EXE_lab"))
}

fn typed(lines: &str) -> Output {
    let mut running = lab().stdin(Stdio::piped()).stdout(Stdio::piped()).stderr(Stdio::piped()).spawn().unwrap();
    running.stdin.take().unwrap().write_all(lines.as_bytes()).unwrap();
    running.wait_with_output().unwrap()
}

#[test]
fn an_argument_that_is_no_text_is_said() {
    for words in [vec![&b"show"[..], b"d\xFCmp.img"], vec![b"run", b"\xFF"], vec![b"\xFF\xFE"]] {
        let output = lab().args(words.iter().map(|w| OsStr::from_bytes(w))).output().unwrap();
        assert_eq!(output.status.code(), Some(1));
        assert!(String::from_utf8_lossy(&output.stderr).contains("is no text: names in UTF-8 are expected"));
    }
}

#[test]
fn an_output_that_cannot_be_written_is_an_error() {
    let full = || OpenOptions::new().write(true).open("/dev/full").unwrap();
    for words in [&["help"][..], &["help", "pages"], &[]] {
        let mut running = lab().args(words).stdin(Stdio::piped()).stdout(full()).stderr(Stdio::piped()).spawn().unwrap();
        let _ = running.stdin.take().unwrap().write_all(b"wirte\ngeometry\n");
        let output = running.wait_with_output().unwrap();
        assert_eq!(output.status.code(), Some(1), "{words:?}");
        assert!(String::from_utf8_lossy(&output.stderr).starts_with("the output cannot be written: "), "{words:?}");
    }
}

#[test]
fn a_name_is_said_as_it_was_typed() {
    let folder = std::path::Path::new(env!("CARGO_TARGET_TMPDIR"));
    for (name, said) in [("lab-test.svg", "draw {}: written\n"), ("lab test.svg", "draw \"{}\": written\n")] {
        let script = folder.join("lab-test.lab");
        std::fs::write(&script, "format-to-the-end 8 8 16\n").unwrap();
        let picture = folder.join(name).to_str().unwrap().to_string();
        let output = lab().args(["run", script.to_str().unwrap(), "--svg", &picture]).output().unwrap();
        assert!(String::from_utf8(output.stdout).unwrap().ends_with(&said.replace("{}", &picture)));
        std::fs::remove_file(picture).unwrap();
    }
}

/// Words in any order: each line is carried out or said to be wrong, and the lab goes on. None of them writes a file.
#[test]
fn no_line_ends_the_lab() {
    let words = "format format-to-the-end recover begin write lone commit abort read checkpoint reclaim cut show report geometry say help import \
         page raw byte map state blank dark keep back class torn zones block changes transactions book checkpoints all bits first last but every none = == / \
         # 50% 101% -1 0 1 2 3 5 8 8 16 17 40 64 255 65535 65536 4294967295 0x10 0xZZ short \"VLAN\" \"\" \" é map=7 hold=0 lab> raw pages";
    let words: Vec<&str> = words.split_whitespace().collect();
    let usual = [
        "format-to-the-end 8 8 16",
        "begin 5",
        "write 5 3 1",
        "write 5 4 2",
        "commit 5",
        "lone 3 7",
        "until-done checkpoint",
        "cut lone 3 1 / first 50%",
        "recover",
        "show all",
        "blank 2 1 1",
        "blank 300 3 5",
        "map 3 40000",
        "page 16 1 3 0 5 0 1 0",
    ];
    let mut seed = 1u64;
    let mut below = |n: usize| {
        seed = seed.wrapping_mul(6364136223846793005).wrapping_add(1442695040888963407);
        (seed >> 33) as usize % n
    };
    for _ in 0..20 {
        let mut lines = String::new();
        for _ in 0..200 {
            let line = match below(2) {
                0 => usual[below(usual.len())].to_string(),
                _ => (0..1 + below(6)).map(|_| words[below(words.len())]).collect::<Vec<_>>().join(" "),
            };
            lines += &format!("{line}\n");
        }
        let output = typed(&(lines + "geometry\nsay \"the end\"\n"));
        assert_eq!(output.status.code(), Some(1));
        assert!(output.stdout.ends_with(b"\n-- the end\n"), "{}", String::from_utf8_lossy(&output.stderr));
    }
}
