//! A call cut at every due bit, each time recovered and read: how many gave the settings from before it, how many those after it.
use crate::{
    command::Order,
    cut::{due_bits, turn},
    pages::Op,
    progress::Progress,
    terminal::stop_asked,
    words::{answer_words, page_name, page_words, plural, refusal_words},
    world::World,
};
use bokuhira::{Answer, Call, Geometry, Refusal, Store, DATA, PAGE, UNMAPPED};
use std::collections::BTreeMap;

/// Every logical page, as a read gives it.
type Settings = Vec<Option<Vec<u8>>>;

fn slot(store: &Store, lpn: usize) -> Option<&[u8]> {
    store.array.get(store.map[lpn] as usize * PAGE..)?.get(..DATA)
}

fn settings(store: &Store) -> Settings {
    (0..store.map.len()).map(|lpn| slot(store, lpn).map(<[u8]>::to_vec)).collect()
}

fn gives(store: &Store, settings: &Settings) -> bool {
    settings.iter().enumerate().all(|(lpn, s)| s.as_deref() == slot(store, lpn))
}

/// A store with this array and the rest lost.
fn dark(array: Vec<u8>, g: Geometry) -> Store {
    Store { array, ..Store::blank(g) }
}

/// Cuts one call in every way of that order, in steps of so many bits. After each cut `look` is handed the array, with all else lost, and
/// how many of the due bits were turned. How many cuts there were; an error where Ctrl-C stopped it.
fn each_cut(array: &[u8], g: Geometry, due: &[u32], order: Order, step: usize, mut look: impl FnMut(&mut Store, usize)) -> Result<usize, String> {
    let mut store = dark(array.to_vec(), g);
    let mut progress = Progress::new();
    let (mut cuts, all) = (0, due.len());
    let of_all = all.div_ceil(step) + 1;
    let mut cut = |store: &mut Store, turned: usize| {
        if stop_asked() {
            progress.end();
            return Err(format!("the sweep was stopped after {cuts} of {of_all} cuts; the flash is as before"));
        }
        look(store, turned);
        cuts += 1;
        progress.at(cuts, of_all);
        Ok(())
    };
    if order == Order::But {
        due.iter().for_each(|bit| turn(&mut store.array, *bit));
        for bit in due.iter().step_by(step) {
            turn(&mut store.array, *bit);
            cut(&mut store, all - 1)?;
            turn(&mut store.array, *bit);
        }
    } else {
        for (i, bit) in due.iter().enumerate() {
            if i % step == 0 {
                cut(&mut store, i)?;
            }
            turn(&mut store.array, *bit);
        }
    }
    cut(&mut store, all)?;
    progress.end();
    Ok(cuts)
}

/// What a recovery of an array gives; none where it is refused.
fn recovered(array: &[u8], g: Geometry) -> Option<Settings> {
    let mut store = dark(array.to_vec(), g);
    (store.recover(g) == Answer::Done).then(|| settings(&store))
}

/// What the recoveries of a sweep gave.
#[derive(Clone, Copy, PartialEq, Eq, Debug, Default)]
struct Counts {
    /// The settings from before the call, and those after it; `same` where the two do not differ.
    old: usize,
    new: usize,
    same: usize,
    neither: usize,
    refused: usize,
    /// The new settings though a due bit was missing, the old ones though none was.
    early: usize,
    late: usize,
}

impl Counts {
    fn lines(&self) -> Vec<(usize, String)> {
        let new = if self.early == 0 { "gave the new settings: with all due bits turned" } else { "gave the new settings" };
        vec![
            (self.same, "gave the settings as they were: this call changes none".into()),
            (self.old, "gave the old settings".into()),
            (self.new, new.into()),
            (self.neither, "gave neither the old nor the new settings".into()),
            (self.refused, "gave a refusal".into()),
        ]
    }

    /// The old settings until the last bit, and the new ones then.
    fn are_right(&self) -> bool {
        self.neither + self.early + self.late + self.refused == 0
    }
}

/// The settings from before a call and after it: as the book has them, where there is one; else what recoveries give.
fn old_and_new(world: &World, call: &Call, due: &[u32], after: &[u8]) -> (Option<Settings>, Option<Settings>) {
    match &world.book {
        Some(book) if !world.spoilt => {
            let mut entered = book.clone();
            entered.cut(Some(call), !due.is_empty());
            (Some(book.pages.clone()), Some(entered.pages))
        }
        _ => (recovered(&world.store.array, world.geometry), recovered(after, world.geometry)),
    }
}

/// What a format that was cut leaves. Nothing is promised of it, so this only counts: the settings from before, an empty flash, others, and
/// the refusals by number.
#[derive(Default)]
struct FormatCounts {
    old: usize,
    empty: usize,
    other: usize,
    refused: BTreeMap<u8, usize>,
}

impl FormatCounts {
    fn lines(&self) -> Vec<(usize, String)> {
        let gave = [(self.old, "gave the settings from before"), (self.empty, "gave an empty flash"), (self.other, "gave other settings")];
        let refused = self.refused.iter().map(|(number, n)| (*n, format!("answered {}", refusal_words(Refusal(*number)))));
        gave.into_iter().map(|(n, what)| (n, what.to_string())).chain(refused).collect()
    }
}

/// What came of all cuts: how many there were, how many recoveries gave what, and whether that is right.
struct Found {
    cuts: usize,
    lines: Vec<(usize, String)>,
    right: bool,
}

/// A call to be cut, from this world.
struct Sweep<'a> {
    world: &'a World,
    call: &'a Call,
    due: Vec<u32>,
    order: Order,
    step: usize,
}

impl Sweep<'_> {
    fn each(&self, look: impl FnMut(&mut Store, usize)) -> Result<usize, String> {
        each_cut(&self.world.store.array, self.world.geometry, &self.due, self.order, self.step, look)
    }

    fn settings(&self, after: &[u8]) -> Result<Found, String> {
        let (g, all) = (self.world.geometry, self.due.len());
        let (old, new) = old_and_new(self.world, self.call, &self.due, after);
        let mut c = Counts::default();
        let cuts = self.each(|store, turned| {
            let done = store.recover(g) == Answer::Done;
            let gives_old = done && old.as_ref().is_some_and(|s| gives(store, s));
            match done {
                false => c.refused += 1,
                true if gives_old && old == new => c.same += 1,
                true if gives_old => (c.old, c.late) = (c.old + 1, c.late + (turned == all) as usize),
                true if new.as_ref().is_some_and(|s| gives(store, s)) => (c.new, c.early) = (c.new + 1, c.early + (turned < all) as usize),
                true => c.neither += 1,
            }
        })?;
        Ok(Found { cuts, lines: c.lines(), right: c.are_right() })
    }

    fn format(&self) -> Result<Found, String> {
        let g = self.world.geometry;
        let old = recovered(&self.world.store.array, g);
        let mut c = FormatCounts::default();
        let cuts = self.each(|store, _| match store.recover(g) {
            Answer::Refused(r) => *c.refused.entry(r.0).or_default() += 1,
            _ if store.map.iter().all(|k| *k == UNMAPPED) => c.empty += 1,
            _ if old.as_ref().is_some_and(|s| gives(store, s)) => c.old += 1,
            _ => c.other += 1,
        })?;
        Ok(Found { cuts, lines: c.lines(), right: true })
    }
}

/// Sweeps one call, and says what came of it; an error where settings were neither the old nor the new ones, or not when they must be.
pub fn sweep(world: &World, text: &str, call: &Call, order: Order, step: usize) -> Result<String, String> {
    let mut after = world.clone();
    let (answer, op) = after.call(call);
    if let Answer::Refused(_) = answer {
        return Ok(format!("{text}: the call answers {}; there is nothing to cut\n", answer_words(answer)));
    }
    let what = match op {
        Op::Nothing => return Ok(format!("{text}: {}; the call turns no bit, so there is nothing to cut\n", answer_words(answer))),
        Op::Program(k) => format!("programs {}: {}", page_name(world.geometry, k), page_words(&after.pages.list[k])),
        Op::Erase(b) => format!("erases block {b}"),
    };
    let mut due = due_bits(&world.store.array, &after.store.array);
    let all = due.len();
    let ways = match order {
        Order::First => format!("with 0 to {all} of the {all} due bits turned, the first ones first"),
        Order::Last => format!("with 0 to {all} of the {all} due bits turned, the last ones first"),
        Order::But => format!("with all but one of the {all} due bits turned, and with all"),
    };
    if order == Order::Last {
        due.reverse();
    }
    let sweep = Sweep { world, call, due, order, step };
    let (found, promise) = match call {
        Call::Format(_) => (sweep.format()?, "  nothing is promised of a format that was cut: a book begins when a format is done\n"),
        _ => (sweep.settings(&after.store.array)?, ""),
    };
    let mut said = format!("{text}: {what}\n  {}, {ways}\n{promise}", plural(found.cuts, "cut"));
    for (n, what) in found.lines.iter().filter(|(n, _)| *n > 0) {
        said += &format!("  {n} {} {what}\n", if *n == 1 { "recovery" } else { "recoveries" });
    }
    match found.right {
        true => Ok(said),
        false => Err(format!("a sweep must give the old settings until the last bit and the new ones then\n{said}")),
    }
}
