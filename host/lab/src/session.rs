//! A session: the world, the steps so far, and the carrying out of one line after another.
use crate::{
    command::{Command, Line},
    cut::Left,
    draw, files, help,
    history::History,
    out::unwritable,
    pages::Op,
    report::{compare, report},
    script::parse,
    show::show,
    spoil::spoil,
    sweep::sweep,
    trace,
    words::{answer_words, call_line, class_words, geometry_words, page_name, plural},
    world::World,
};
use bokuhira::{Answer, Call, Geometry};
use std::io::Write;

#[derive(Default)]
pub struct Session {
    pub world: Option<World>,
    kept: Option<World>,
    /// Between keep and back, until a cut: each call from the same world.
    same: bool,
    pub history: History,
    /// How many commands were carried out.
    pub done: usize,
    /// How many lines gave all that they say, as in a trace.
    pub compared: usize,
    /// The lines carried out, as they were written; and how many commands came since they were saved, help not counted.
    lines: Vec<String>,
    pub unsaved: usize,
}

/// Whether the session goes on after a line.
#[derive(PartialEq, Eq)]
pub enum Next {
    On,
    Quit,
}

const NO_FLASH: &str = "there is no flash yet: begin with format-to-the-end 8 8 16, or import FILE";

impl Session {
    /// Carries out one line. After an error everything is as it was before the line.
    pub fn line(&mut self, line: &str, out: &mut dyn Write) -> Result<Next, String> {
        let written = line.trim().trim_start_matches("lab>").trim_start();
        let Some(line) = parse(written, self.world.as_ref().map(|w| w.geometry))? else {
            self.lines.extend((!written.is_empty()).then(|| written.into()));
            return Ok(Next::On);
        };
        let next = self.command(&line, out)?;
        self.done += 1;
        let looks = matches!(line.command, Command::Class(_) | Command::Torn);
        self.compared += line.expected.as_deref().is_some_and(|e| looks || trace::says_all(e)) as usize;
        if !matches!(line.command, Command::Save(_) | Command::Quit) {
            self.lines.push(written.into());
            self.unsaved += !matches!(line.command, Command::Help(_)) as usize;
        }
        Ok(next)
    }

    fn command(&mut self, line: &Line, out: &mut dyn Write) -> Result<Next, String> {
        let text = line.text.as_str();
        let mut say = |s: &str| out.write_all(s.as_bytes()).and_then(|()| out.flush()).map_err(unwritable);
        match &line.command {
            Command::Quit => return Ok(Next::Quit),
            Command::Help(word) => say(&help::text(word.as_deref())?)?,
            Command::Say(words) => {
                say(&format!("\n-- {words}\n"))?;
                self.record(words, "");
            }
            Command::Call(call) => say(&format!("{}\n", self.with_flash(call, |s| s.call(text, call, line.expected.as_deref()))?))?,
            Command::FormatToTheEnd(g) => {
                say(&format!("{}\n", self.with_flash(&Call::Format(*g), |s| s.format(text, *g, line.expected.as_deref()))?))?
            }
            Command::UntilDone(call) => {
                let name = text.split_once(char::is_whitespace).map_or("", |(_, call)| call.trim());
                self.until_done(name, call, line.expected.as_deref(), &mut say)?
            }
            Command::Cut(call, left) => say(&format!("{}\n", self.cut(text, call.as_ref(), left, line.expected.as_deref())?))?,
            Command::Dark { map, hold } => {
                self.world_mut()?.dark(*map, *hold);
                self.same = false;
                say(&format!("{text}: the state is lost\n"))?;
                self.record(text, "the state is lost");
            }
            Command::Blank(g) => {
                self.world = Some(blank(*g)?);
                say(&format!("{text}: a new flash of zero bytes\n"))?;
                self.record(text, "a new flash of zero bytes");
            }
            Command::Keep => (self.kept, self.same) = (Some(self.world_mut()?.clone()), true),
            Command::Back => {
                let kept = self.kept.take().ok_or("nothing was kept: 'keep' comes before 'back'")?;
                (self.world, self.same) = (Some(kept), false);
            }
            Command::State(_) | Command::Map(..) | Command::Byte(..) | Command::Page { .. } => {
                let said = spoil(self.world_mut()?, &line.command)?;
                say(&format!("{text}: {said}\n"))?;
                self.record(text, &said);
            }
            Command::Class(k) => {
                let pages = &self.world_mut()?.pages.list;
                let page = pages.get(*k).ok_or_else(|| format!("there is no page {k}: pages are 0 to {}", pages.len() - 1))?;
                trace::found_agrees(line.expected.as_deref(), trace::class_of(page.class))?;
                say(&format!("{text}: {}\n", class_words(page.class)))?;
            }
            Command::Torn => {
                let torn = self.world_mut()?.torn_count().ok_or("no scan order is known")?;
                trace::found_agrees(line.expected.as_deref(), torn.to_string())?;
                say(&format!("{text}: {} in scan order\n", plural(torn, "torn page")))?;
            }
            Command::Show(what) => say(&show(self.world_mut()?, what)?)?,
            Command::Draw(file) => {
                let picture = if file.ends_with(".svg") { draw::svg(self.world_mut()?) } else { draw::html(&self.history)? };
                files::write(file, picture.as_bytes())?;
                say(&format!("{text}: written\n"))?;
            }
            Command::Export { file, raw } => {
                let bytes = files::dump(self.world_mut()?, *raw);
                files::write(file, &bytes)?;
                say(&format!("{text}: {} bytes written\n", bytes.len()))?;
            }
            Command::Import { file, geometry } => {
                let (g, array) = files::image(file, *geometry)?;
                self.world = Some(World::import(g, array));
                let said = format!("{}; 'recover' comes next", geometry_words(g));
                say(&format!("{text}: {said}\n"))?;
                self.record(text, &said);
            }
            Command::Report(file) => {
                let report = report(self.world_mut()?);
                match file {
                    None => say(&report)?,
                    Some(file) => say(&compare(&report, &String::from_utf8_lossy(&files::read(file)?), file))?,
                }
            }
            Command::Save(file) => {
                let text: String = self.lines.iter().map(|line| format!("{line}\n")).collect();
                files::write(file, text.as_bytes())?;
                self.unsaved = 0;
                say(&format!("{}: {} written\n", line.text, plural(self.lines.len(), "line")))?;
            }
            Command::Sweep { call, until_done, order, step } => {
                let mut at = self.world_mut()?.clone();
                loop {
                    say(&sweep(&at, &line.head, call, *order, *step)?)?;
                    if !until_done || at.call(call).0 != Answer::More {
                        break;
                    }
                }
            }
            Command::Geometry => {
                let world = self.world_mut()?;
                say(&format!("{}; {} bytes\n", geometry_words(world.geometry), world.store.array.len()))?;
            }
        }
        Ok(Next::On)
    }

    fn world_mut(&mut self) -> Result<&mut World, String> {
        self.world.as_mut().ok_or_else(|| NO_FLASH.into())
    }

    /// The first format or recover of a session takes a new flash of its geometry; where that is refused, there is still none.
    fn with_flash<T>(&mut self, call: &Call, run: impl FnOnce(&mut Session) -> T) -> T {
        let first = self.world.is_none();
        if let (true, Call::Format(g) | Call::Recover(g)) = (first, call) {
            self.world = blank(*g).ok();
        }
        let done = run(self);
        if first && self.world.as_ref().is_some_and(|w| w.lost) {
            self.world = None;
        }
        done
    }

    fn record(&mut self, text: &str, said: &str) {
        if let (Some(world), None) = (&self.world, &self.kept) {
            self.history.record(world, text, said);
        }
    }

    /// One call with what is expected of it. After `keep` the world is put back, until a cut.
    fn call(&mut self, text: &str, call: &Call, expected: Option<&str>) -> Result<String, String> {
        let same = self.same;
        let before = if same || expected.is_some() { Some(self.world_mut()?.clone()) } else { None };
        let world = self.world_mut()?;
        let (answer, op) = world.call(call);
        let said = call_line(text, world, call, answer, op);
        if let (Some(expected), Some(before)) = (expected, &before) {
            let agreed = match call {
                Call::Read(lpn) => trace::read_agrees(expected, world.store.read(*lpn)),
                _ => trace::agrees(expected, answer, op, &before.store, world),
            };
            if let Err(found) = agreed {
                self.world = Some(before.clone());
                return Err(found);
            }
        }
        match before {
            Some(before) if same => self.world = Some(before),
            _ => self.record(text, said_of(text, &said)),
        }
        Ok(said)
    }

    /// A call again and again; each is said as it is done.
    fn until_done(&mut self, name: &str, call: &Call, expected: Option<&str>, say: &mut dyn FnMut(&str) -> Result<(), String>) -> Result<(), String> {
        if self.same {
            return Err("between keep and back each call starts anew: until-done has no end there".into());
        }
        let before = expected.map(|_| (self.world.clone(), self.history.clone()));
        loop {
            let (said, answer) = self.with_flash(call, |s| s.stride(name, call))?;
            say(&format!("{said}\n"))?;
            match (answer, expected) {
                (Answer::More, _) => continue,
                (_, Some(e)) if e != answer.number().to_string() => {
                    if let Some(before) = before {
                        (self.world, self.history) = before;
                    }
                    return Err(format!("expected {e}, and the answer is {}", answer_words(answer)));
                }
                _ => return Ok(()),
            }
        }
    }

    /// One call of several; its line and its answer.
    fn stride(&mut self, text: &str, call: &Call) -> Result<(String, Answer), String> {
        let world = self.world_mut()?;
        let (answer, op) = world.call(call);
        let said = call_line(text, world, call, answer, op);
        self.record(text, said_of(text, &said));
        Ok((said, answer))
    }

    fn format(&mut self, text: &str, g: Geometry, expected: Option<&str>) -> Result<String, String> {
        let call = Call::Format(g);
        let before = self.world_mut()?.clone();
        let world = self.world_mut()?;
        let mut strides = 1;
        let mut answer = world.call(&call).0;
        while answer == Answer::More {
            answer = world.call(&call).0;
            strides += 1;
        }
        if let Some(Err(found)) = expected.map(|e| trace::agrees(e, answer, Op::Nothing, &before.store, world)) {
            self.world = Some(before);
            return Err(found);
        }
        let said = match answer {
            Answer::Done => {
                format!("{}; {}, {}", answer_words(answer), plural(strides, "stride"), geometry_words(g))
            }
            _ => {
                let said = call_line(text, world, &call, answer, Op::Nothing);
                self.record(text, said_of(text, &said));
                return Ok(said);
            }
        };
        self.record(text, &said);
        Ok(format!("{text}: {said}"))
    }

    fn cut(&mut self, text: &str, call: Option<&Call>, left: &Left, expected: Option<&str>) -> Result<String, String> {
        let before = self.world_mut()?.clone();
        let world = self.world_mut()?;
        world.cut(call, left, text)?;
        let found = format!("array={}", trace::array_digest(&world.store.array));
        if expected.is_some_and(|e| e != found) {
            self.world = Some(before);
            return Err(format!("expected {}, found {found}", expected.unwrap_or("")));
        }
        let cut = world.cut.as_ref().expect("the cut that fell");
        let turned = cut.turned_words();
        let mut said = match cut.op {
            Op::Nothing => cut.nothing.clone(),
            Op::Program(k) => {
                format!(
                    "power lost in the program of {}; {turned}; the page is {}",
                    page_name(world.geometry, k),
                    class_words(world.pages.list[k].class)
                )
            }
            Op::Erase(b) => format!("power lost in the erase of block {b}; {turned}"),
        };
        for r in &cut.ran {
            said += &format!("; {}, it is {}", r.words(world.geometry), class_words(world.pages.list[r.page].class));
        }
        self.same = false;
        self.record(text, &said);
        Ok(format!("{text}: {said}"))
    }
}

/// What a line says behind its command.
fn said_of<'a>(text: &str, line: &'a str) -> &'a str {
    line.strip_prefix(text).map_or(line, |rest| rest.trim_start_matches(": "))
}

/// A new flash. The layer refuses other sizes than 8 to 128 blocks of 8 to 64 pages, but below two blocks there is no front to show.
fn blank(g: Geometry) -> Result<World, String> {
    if g.blocks < 2 || g.pages == 0 {
        return Err(format!("a flash of {} blocks of {} pages cannot be had: 8 to 128 blocks of 8 to 64 pages are allowed", g.blocks, g.pages));
    }
    Ok(World::blank(g))
}

#[cfg(test)]
mod tests {
    use super::*;

    #[test]
    fn after_an_error_everything_is_as_it_was_before_the_line() {
        let mut session = Session::default();
        let mut line = |line: &str| session.line(line, &mut Vec::new()).is_ok();
        assert!(!line("until-done format 8 8 16 = 17"));
        assert!(line("format-to-the-end 8 8 16") && line("lone 3 1"));
        let wrong =
            ["until-done checkpoint = 5", "until-done format 9 8 16 = 5", "checkpoint = 0", "format-to-the-end = 5", "cut lone 3 2 / all = x"];
        let before = (session.world.clone().unwrap().store, draw::html(&session.history).unwrap());
        for line in wrong {
            assert!(session.line(line, &mut Vec::new()).is_err());
            assert!(before == (session.world.clone().unwrap().store, draw::html(&session.history).unwrap()), "{line}");
        }
        assert_eq!(session.history.steps.len(), 2);
        assert!(session.line("until-done checkpoint = 0", &mut Vec::new()).is_ok());
        assert_eq!(session.history.steps.len(), 4);
    }

    #[test]
    fn torn_pages_are_counted_where_there_is_a_scan_order() {
        let mut session = Session::default();
        assert!(session.line("blank 8 8 16", &mut Vec::new()).is_ok());
        assert_eq!(session.line("torn", &mut Vec::new()).err().as_deref(), Some("no scan order is known"));
        let mut said = Vec::new();
        for line in ["format-to-the-end", "cut lone 3 2 / first 1", "cut", "torn", "recover", "torn", "class 16"] {
            said.clear();
            assert!(session.line(line, &mut said).is_ok(), "{line}");
            assert!(line != "torn" || said == b"torn: 1 torn page in scan order\n");
        }
        assert_eq!(said, b"class 16: torn by 65534\n");
    }

    #[test]
    fn a_step_is_compared_where_its_line_says_all() {
        let mut session = Session::default();
        for line in ["format-to-the-end 8 8 16 = 0", "begin 5 = 0", "begin 5 = 7 (-) same", "read 3 = 14 -", "read 3 = 14", "begin 6"] {
            assert!(session.line(line, &mut Vec::new()).is_ok(), "{line}");
        }
        assert_eq!(session.compared, 2);
        for line in ["byte 8448 254", "byte 0 0", "class 16 = torn 65534", "class 17 = erased", "class 1 = whole", "class 0", "torn = 1", "torn"] {
            assert!(session.line(line, &mut Vec::new()).is_ok(), "{line}");
        }
        assert_eq!(session.compared, 6);
        for line in ["begin 5 = 8 (-) same", "class 16 = torn", "class 16 = torn 65535", "class 64 = erased", "torn = 2", "torn = 1 page"] {
            assert!(session.line(line, &mut Vec::new()).is_err(), "{line}");
        }
        assert_eq!(session.compared, 6);
    }
}
