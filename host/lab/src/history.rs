//! The steps of a session as a page shows them: for each, only what looks other than before.
use crate::{
    look::{edges, look_of, state_line, words, zone_css, Look, Words},
    world::World,
};
use bokuhira::Geometry;
use std::collections::HashMap;

/// How a page looks: its kind, its edges, and its words.
#[derive(Clone, Copy, PartialEq, Eq)]
pub struct Cell {
    pub look: Look,
    pub edges: u8,
    pub words: u32,
}

/// A run of pages that look alike from now on.
#[derive(Clone)]
pub struct Run {
    pub first: usize,
    pub pages: usize,
    pub cell: Cell,
}

#[derive(Clone)]
pub struct Step {
    pub text: String,
    pub said: String,
    pub state: String,
    pub runs: Vec<Run>,
    /// Blocks whose zone changed: block, class, words.
    pub zones: Vec<(usize, &'static str, String)>,
    pub next: Option<usize>,
    pub pointer: u8,
}

/// The steps since the flash had this geometry.
#[derive(Clone, Default)]
pub struct History {
    pub geometry: Option<Geometry>,
    pub steps: Vec<Step>,
    pub words: Vec<Words>,
    known: HashMap<Words, u32>,
    cells: Vec<Cell>,
    stamps: Vec<u64>,
    zones: Vec<(&'static str, String)>,
}

/// Where the zones are not known: far out of the picture.
const NO_POINTER: u8 = u8::MAX;

const CLEAN: Cell = Cell { look: Look::Erased, edges: 0, words: 0 };

impl History {
    /// Adds a step: this world, after this command, which said that. A flash of another size starts the history anew.
    pub fn record(&mut self, world: &World, text: &str, said: &str) {
        let g = world.geometry;
        if self.geometry.is_none_or(|old| (old.blocks, old.pages) != (g.blocks, g.pages)) {
            let n = world.pages.list.len();
            *self = History {
                geometry: Some(g),
                cells: vec![CLEAN; n],
                stamps: vec![u64::MAX; n],
                zones: vec![("", String::new()); g.blocks as usize],
                ..History::default()
            };
            self.words.push(Words::default());
            self.known.insert(Words::default(), 0);
        }
        let view = world.view();
        let mut runs: Vec<Run> = Vec::new();
        for (k, page) in world.pages.list.iter().enumerate() {
            let same = self.stamps[k] == world.pages.stamps[k];
            let cell = Cell {
                look: if world.runs(k) { Look::Running } else { look_of(page, view.fates[k], view.holds[k]) },
                edges: edges(&view, &world.pages.list, k),
                words: if same { self.cells[k].words } else { self.word(words(world, k)) },
            };
            self.stamps[k] = world.pages.stamps[k];
            if cell == self.cells[k] {
                continue;
            }
            self.cells[k] = cell;
            match runs.last_mut() {
                Some(run) if run.first + run.pages == k && run.cell == cell => run.pages += 1,
                _ => runs.push(Run { first: k, pages: 1, cell }),
            }
        }
        let mut zones = Vec::new();
        for (b, zone) in view.zones.iter().enumerate() {
            let order = view.available.iter().position(|x| *x as usize == b).filter(|_| b > 1);
            let now = (zone_css(*zone).0, order.map_or(zone.word().into(), |i| format!("available {}", i + 1)));
            if self.zones[b] != now {
                self.zones[b] = now.clone();
                zones.push((b, now.0, now.1));
            }
        }
        self.steps.push(Step {
            text: text.into(),
            said: said.into(),
            state: state_line(world),
            runs,
            zones,
            next: view.next,
            pointer: view.pointer.unwrap_or(NO_POINTER),
        });
    }

    fn word(&mut self, words: Words) -> u32 {
        let next = self.words.len() as u32;
        *self.known.entry(words).or_insert_with_key(|w| {
            self.words.push(w.clone());
            next
        })
    }
}

#[cfg(test)]
mod tests {
    use super::*;
    use crate::session::Session;

    #[test]
    fn the_runs_of_all_steps_give_the_last_picture() {
        let script = "format-to-the-end 8 8 16\nbegin 5\nwrite 5 3 1\nwrite 5 4 2\ncommit 5\nlone 3 7\nuntil-done checkpoint\nbegin 6\nwrite 6 1 1\nwrite 6 2 1\ncut commit 6 / first 9%\nrecover";
        let mut session = Session::default();
        for line in script.lines() {
            assert!(session.line(line, &mut Vec::new()).is_ok());
        }
        let history = &session.history;
        assert_eq!(history.steps.len(), 13);
        let mut cells = vec![CLEAN; 64];
        for run in history.steps.iter().flat_map(|s| &s.runs) {
            cells[run.first..run.first + run.pages].fill(run.cell);
        }
        let mut anew = History::default();
        anew.record(session.world.as_ref().unwrap(), "", "");
        for (k, cell) in cells.iter().enumerate() {
            assert_eq!((cell.look, cell.edges), (anew.cells[k].look, anew.cells[k].edges), "page {k}");
            assert!(history.words[cell.words as usize] == anew.words[anew.cells[k].words as usize], "page {k}");
        }
        assert!(cells.iter().filter(|c| c.look != Look::Erased).count() == 9);
    }
}
