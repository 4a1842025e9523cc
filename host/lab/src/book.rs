//! The book of document 01 (docs/PAPERS.md): what must be read, from the calls' arguments and answers and from the cuts alone.
use bokuhira::{Answer, Call};

#[derive(Clone, PartialEq, Eq, Debug)]
pub struct Book {
    pub pages: Vec<Option<Vec<u8>>>,
    pub open: Vec<Change>,
}

/// An open change: its identifier and its writes in order, each with what it leaves of its page: data, or, where it is a drop, nothing.
#[derive(Clone, PartialEq, Eq, Debug)]
pub struct Change {
    pub id: u32,
    pub writes: Vec<(u16, Option<Vec<u8>>)>,
}

impl Book {
    /// Every page never written, no change open.
    pub fn fresh(logical: u16) -> Book {
        Book { pages: vec![None; logical as usize], open: Vec::new() }
    }

    /// What a call's answer does to the book; only done counts.
    pub fn answered(&mut self, call: &Call, answer: Answer) {
        if answer != Answer::Done {
            return;
        }
        match call {
            Call::Begin(id) => self.open.push(Change { id: *id, writes: Vec::new() }),
            Call::Write { id, lpn, data } => self.add(*id, *lpn, Some(data.clone())),
            Call::Drop { id, lpn } => self.add(*id, *lpn, None),
            Call::Commit(_) | Call::Lone { .. } => self.enter(call),
            Call::Abort(id) => self.open.retain(|c| c.id != *id),
            Call::Recover(_) => self.open.clear(),
            Call::Format(_) | Call::Read(_) | Call::Checkpoint | Call::Reclaim => (),
        }
    }

    fn add(&mut self, id: u32, lpn: u16, content: Option<Vec<u8>>) {
        self.open.iter_mut().filter(|c| c.id == id).for_each(|c| c.writes.push((lpn, content.clone())));
    }

    /// What a cut does: `complete` says that its call programs a page and that all due bits of it were turned.
    pub fn cut(&mut self, call: Option<&Call>, complete: bool) {
        if let (Some(call), true) = (call, complete) {
            self.enter(call);
        }
        self.open.clear();
    }

    /// Enters the writes of a commit or a lone write.
    fn enter(&mut self, call: &Call) {
        match call {
            Call::Commit(id) => {
                let (closed, open) = std::mem::take(&mut self.open).into_iter().partition(|c| c.id == *id);
                self.open = open;
                let closed: Vec<Change> = closed;
                closed.into_iter().flat_map(|c| c.writes).for_each(|(lpn, content)| self.put(lpn, content));
            }
            Call::Lone { lpn, data } => self.put(*lpn, Some(data.clone())),
            _ => (),
        }
    }

    fn put(&mut self, lpn: u16, content: Option<Vec<u8>>) {
        if let Some(page) = self.pages.get_mut(lpn as usize) {
            *page = content;
        }
    }
}
