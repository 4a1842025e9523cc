//! The session at the keyboard, and from any other standard input that is no script.
use crate::{
    complete,
    edit::{Editor, Ended},
    keys::Keys,
    out::Out,
    script::text_line,
    session::{Next, Session},
    terminal::{catch_interrupts, stop_asked, width, Keyed},
    words::plural,
};
use std::io::{stdin, BufRead, IsTerminal, Read, StdinLock};

const PROMPT: &str = "lab> ";
const WELCOME: &str = "The lab of the flash layer. 'help' lists the commands, 'help keys' the keys; a first one: format-to-the-end 8 8 16\n";

/// Commands from standard input; an error is said and the session goes on. Prompts and editing are for people only.
pub fn interactive() -> Result<(), String> {
    let people = stdin().is_terminal();
    let mut lines = Lines { input: stdin().lock(), people, editor: Editor::new(PROMPT, complete::words), out: Out::default() };
    let mut session = Session::default();
    let (mut errors, mut warned) = (0, false);
    if people {
        catch_interrupts();
        lines.out.say(WELCOME)?;
    }
    for at in 1.. {
        stop_asked();
        let done = match lines.next(at == 1)? {
            Ok(Ended::Line(line)) => session.line(&line, &mut lines.out),
            Ok(Ended::Break) => continue,
            Ok(Ended::Input) => Ok(Next::Quit),
            Err(no_text) => Err(no_text),
        };
        match done {
            Ok(Next::Quit) if people && session.unsaved > 0 && !warned && !lines.out.gone => {
                let n = plural(session.unsaved, "line");
                lines.out.say(&format!(
                    "{n} not saved: 'save FILE' writes a script that 'lab run FILE' carries out again; 'quit' or Ctrl-D once more ends\n"
                ))?;
                warned = true;
                continue;
            }
            Ok(Next::Quit) => break,
            Ok(Next::On) => (),
            Err(e) => {
                errors += 1;
                lines.out.say(&format!("line {at}: {e}\n"))?;
            }
        }
        warned = false;
        if people && lines.out.gone {
            break;
        }
    }
    match (people, errors) {
        (false, 1..) => Err(format!("{} could not be carried out", plural(errors, "line"))),
        _ => Ok(()),
    }
}

/// Lines from standard input, edited where a terminal can do that.
struct Lines<'a> {
    input: StdinLock<'a>,
    people: bool,
    editor: Editor,
    out: Out,
}

impl Lines<'_> {
    /// The next line; the inner error is a line that is no text.
    fn next(&mut self, first: bool) -> Result<Result<Ended, String>, String> {
        match Keyed::new() {
            Some(_keyed) => self.edited().map(Ok),
            None => self.plain(first),
        }
    }

    /// A line key by key, while the terminal hands these over.
    fn edited(&mut self) -> Result<Ended, String> {
        let mut keys = Keys::default();
        let begun = self.editor.begin(width());
        self.out.say(&begun)?;
        while let Some(byte) = self.input.by_ref().bytes().next() {
            let Some(key) = keys.byte(byte.map_err(unreadable)?) else { continue };
            let (sent, ended) = self.editor.key(key, width());
            self.out.say(&sent)?;
            if let Some(ended) = ended {
                return Ok(ended);
            }
        }
        Ok(Ended::Input)
    }

    fn plain(&mut self, first: bool) -> Result<Result<Ended, String>, String> {
        if self.people {
            self.out.say(PROMPT)?;
        }
        let mut bytes = Vec::new();
        match self.input.read_until(b'\n', &mut bytes).map_err(unreadable)? {
            0 => Ok(Ok(Ended::Input)),
            _ => Ok(text_line(&bytes, first).map(|line| Ended::Line(line.into()))),
        }
    }
}

fn unreadable(e: std::io::Error) -> String {
    format!("the input cannot be read: {e}")
}
