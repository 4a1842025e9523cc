//! The lab: runs commands and power cuts over the proved flash layer, from a script or the keyboard; shows and draws the flash; sweeps
//! the bits of a call.
mod book;
mod checkpoints;
mod command;
mod complete;
mod cut;
mod data;
mod draw;
mod edit;
mod files;
mod frame;
mod help;
mod history;
mod keys;
mod look;
#[cfg(test)]
mod lot;
mod out;
mod pages;
mod parse;
mod progress;
mod prompt;
mod ranges;
mod report;
#[path = "../../tests/common/running.rs"]
mod running;
mod script;
mod session;
mod show;
mod spoil;
mod sweep;
mod terminal;
mod tokens;
mod topics;
mod trace;
mod view;
mod why;
mod words;
mod world;

use out::Out;
use session::{Next, Session};
use std::io::{stderr, Write};
use std::process::ExitCode;

const USAGE: &str = "\
lab                                      commands from the keyboard, one a line; 'help' lists them
lab run SCRIPT [--html FILE] [--svg FILE]    runs a script; draws its steps as a page, its end as a picture
lab show IMAGE [BLOCKS PAGES LOGICAL [PLANES]] [--html FILE] [--svg FILE]
                                         recovers a dump and shows all of it; where recover refuses, why
lab help [WORD]                          the commands
";

/// The words of the command line without the pictures, and the commands that draw these.
struct Arguments {
    words: Vec<String>,
    pictures: Vec<String>,
}

fn arguments() -> Result<Arguments, String> {
    let mut found = Arguments { words: Vec::new(), pictures: Vec::new() };
    let text = |word: std::ffi::OsString| word.into_string().map_err(|word| format!("'{}' is no text: names in UTF-8 are expected", word.display()));
    let words: Result<Vec<String>, String> = std::env::args_os().skip(1).map(text).collect();
    let mut words = words?.into_iter();
    while let Some(word) = words.next() {
        match word.strip_prefix("--") {
            Some(kind @ ("html" | "svg")) => match words.next() {
                Some(file) if file.ends_with(&format!(".{kind}")) => found.pictures.push(file),
                _ => return Err(format!("--{kind} needs the name of a file that ends in .{kind}")),
            },
            Some("help") => found.words = vec!["help".into()],
            Some(other) => return Err(format!("no option '--{other}'\n{USAGE}")),
            None => found.words.push(word),
        }
    }
    Ok(found)
}

fn main() -> ExitCode {
    let mut out = Out::default();
    let done = arguments().and_then(|a| {
        let words: Vec<&str> = a.words.iter().map(String::as_str).collect();
        match words[..] {
            [] if a.pictures.is_empty() => prompt::interactive(),
            ["help"] => help::text(None).and_then(|t| out.say(&format!("{USAGE}\n{t}"))),
            ["help", word] => help::text(Some(&word.to_lowercase())).and_then(|t| out.say(&t)),
            ["run", script] => run(script, &a.pictures, &mut out),
            ["show", image] => show_image(&format!("import {}", quoted(image)), &a.pictures, &mut out),
            ["show", image, _, _, _] | ["show", image, _, _, _, _] => {
                show_image(&format!("import {} {}", quoted(image), words[2..].join(" ")), &a.pictures, &mut out)
            }
            _ => Err(format!("usage:\n{USAGE}")),
        }
    });
    match done {
        Ok(()) => ExitCode::SUCCESS,
        Err(e) => {
            let _ = writeln!(stderr(), "{}", e.trim_end());
            ExitCode::FAILURE
        }
    }
}

/// A name as a line takes it: in quotes where it would not be one word without.
fn quoted(name: &str) -> String {
    match tokens::tokens(name) {
        Ok((found, _)) if found == [(tokens::Token::Word(name.into()), 0)] && !["=", "/"].contains(&name) => name.into(),
        _ => format!("\"{}\"", name.replace('\\', "\\\\").replace('"', "\\\"").replace('\n', "\\n")),
    }
}

/// A script, line by line; it stops at the first error, and what was done is drawn all the same. Of a trace it says how much was compared.
fn run(script: &str, pictures: &[String], out: &mut Out) -> Result<(), String> {
    let text = files::read(script)?;
    let mut session = Session::default();
    let mut done = Ok(());
    for (at, line) in text.split(|b| *b == b'\n').enumerate() {
        match script::text_line(line, at == 0).and_then(|line| session.line(line, out)) {
            Ok(Next::On) => (),
            Ok(Next::Quit) => break,
            Err(e) => {
                done = Err(format!(
                    "{script}: line {}: {e}\n{script}: stopped there; {} carried out before it",
                    at + 1,
                    words::plural(session.done, "command")
                ));
                break;
            }
        }
    }
    draw_all(&mut session, pictures, out)?;
    done?;
    if session.compared > 0 {
        out.say(&format!("{} compared: all as the script says\n", words::plural(session.compared, "step")))?;
    }
    Ok(())
}

fn draw_all(session: &mut Session, pictures: &[String], out: &mut Out) -> Result<(), String> {
    pictures.iter().try_for_each(|file| session.line(&format!("draw {}", quoted(file)), out).map(|_| ()))
}

fn show_image(import: &str, pictures: &[String], out: &mut Out) -> Result<(), String> {
    let mut session = Session::default();
    for line in [import, "recover", "report", "show all"] {
        session.line(line, out)?;
    }
    draw_all(&mut session, pictures, out)
}
