//! The book of a sequence.
use bokuhira::{Call, Geometry};
use std::collections::BTreeMap;

/// What the book has of a page: its data, or that it was never written.
pub type Content = Option<Vec<u8>>;

/// The book: L pages, at first never written, and the open changes, each with its writes in order. A drop is a write that leaves its page as
/// never written. It is fed calls, answers and cuts alone.
#[derive(Clone)]
pub struct Book {
    pub pages: Vec<Content>,
    pub open: BTreeMap<u32, Vec<(u16, Content)>>,
}

impl Book {
    pub fn new(g: Geometry) -> Book {
        Book { pages: vec![None; g.logical as usize], open: BTreeMap::new() }
    }

    fn enter(&mut self, lpn: u16, content: Content) {
        self.pages[lpn as usize] = content;
    }

    fn add(&mut self, id: u32, lpn: u16, content: Content) {
        self.open.get_mut(&id).expect("an open change").push((lpn, content));
    }

    /// What a commit or a lone write enters, at its end or in a cut.
    fn enter_writes(&mut self, call: &Call) {
        match call {
            Call::Commit(id) => self.open.remove(id).into_iter().flatten().for_each(|(lpn, content)| self.enter(lpn, content)),
            Call::Lone { lpn, data } => self.enter(*lpn, Some(data.clone())),
            _ => (),
        }
    }

    pub fn answered(&mut self, call: &Call, answer: u8) {
        if answer != 0 {
            return;
        }
        match call {
            Call::Begin(id) => drop(self.open.insert(*id, Vec::new())),
            Call::Write { id, lpn, data } => self.add(*id, *lpn, Some(data.clone())),
            Call::Drop { id, lpn } => self.add(*id, *lpn, None),
            Call::Abort(id) => drop(self.open.remove(id)),
            Call::Recover(_) => self.open.clear(),
            _ => self.enter_writes(call),
        }
    }

    /// A cut, in a call or between two: whether the call programs a page, and whether all due bits of its transaction's pages were turned.
    pub fn cut(&mut self, call: Option<&Call>, programs: bool, all_turned: bool) {
        if let Some(call) = call.filter(|_| programs && all_turned) {
            self.enter_writes(call);
        }
        self.open.clear();
    }
}
