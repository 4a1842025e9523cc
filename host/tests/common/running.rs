//! Pages that run (document 02, point 11; docs/PAPERS.md): on two planes a write or a drop may answer while its page is being programmed. The
//! array already holds such a page in full; a cut leaves any part of its due bits turned. What runs is no part of the state: it is kept
//! here, from the calls and what they did. The lab uses it too.
use bokuhira::{Call, Store, PAGE};

/// The bytes of page k.
fn page_of(array: &[u8], k: usize) -> &[u8] {
    &array[k * PAGE..][..PAGE]
}

/// A page that runs: the identifier of its change, its number, and its bytes before the program.
#[derive(Clone, PartialEq, Eq, Debug)]
pub struct Running {
    pub id: u32,
    pub page: usize,
    before: Vec<u8>,
}

impl Running {
    /// Its due bits, a byte of the array and a mask for each, lowest byte first, bit 0 first.
    pub fn due_bits(&self, array: &[u8]) -> Vec<(usize, u8)> {
        let from = self.page * PAGE;
        let bits = self.before.iter().zip(page_of(array, self.page)).enumerate();
        bits.flat_map(|(i, (x, y))| (0..8).map(|bit| 1 << bit).filter(move |mask| x & !y & mask != 0).map(move |mask| (from + i, mask))).collect()
    }

    /// Of its due bits those that were not turned are ones again.
    pub fn cut(&self, array: &mut [u8], turned: &[bool]) {
        for ((at, mask), _) in self.due_bits(array).iter().zip(turned).filter(|(_, turned)| !**turned) {
            array[*at] |= mask;
        }
    }
}

/// A call that was carried out: what it was handed, what it answered and the array that it left.
pub struct Done<'a> {
    pub call: &'a Call,
    pub answer: u8,
    pub before: &'a Store,
    pub after: &'a [u8],
}

impl Done<'_> {
    fn refused(&self) -> bool {
        self.answer != 0 && self.answer != 255
    }

    /// The page that it programmed: the one of which bits were turned to zeros.
    fn programmed(&self) -> Option<usize> {
        let before = &self.before.array;
        let k = before.chunks(PAGE).zip(self.after.chunks(PAGE)).position(|(x, y)| x != y)?;
        page_of(before, k).iter().zip(page_of(self.after, k)).all(|(x, y)| !x & y == 0).then_some(k)
    }

    /// Whether it programmed or erased. Each stride of a format, a checkpoint and a reclaim does, though an erase may change nothing.
    fn operates(&self) -> bool {
        let strides = matches!(self.call, Call::Format(_) | Call::Checkpoint | Call::Reclaim);
        !self.refused() && (strides || self.before.array != self.after)
    }

    /// A number of the geometry in the state that it was handed.
    fn geometry(&self, at: usize) -> usize {
        u16::from_le_bytes([self.before.state[at], self.before.state[at + 1]]).into()
    }

    fn two_planes(&self) -> bool {
        self.geometry(6) == 2
    }

    /// Whether two pages are in one plane.
    fn together(&self, page: usize, other: usize) -> bool {
        let block = |page: usize| page / self.geometry(2);
        !self.two_planes() || block(page) % 2 == block(other) % 2
    }

    /// The pages that still run while the call's operation is done: one in the same plane has ended, and some commands wait for all.
    pub fn during(&self, running: &[Running]) -> Vec<Running> {
        let waits = matches!(self.call, Call::Format(_) | Call::Recover(_) | Call::Checkpoint | Call::Reclaim);
        match self.programmed() {
            _ if !self.operates() => running.to_vec(),
            _ if waits => Vec::new(),
            programmed => running.iter().filter(|r| !programmed.is_some_and(|k| self.together(r.page, k))).cloned().collect(),
        }
    }

    /// The pages that run when the call has answered.
    pub fn after(&self, running: &[Running]) -> Vec<Running> {
        match self.call {
            _ if self.refused() => running.to_vec(),
            Call::Begin(_) | Call::Abort(_) | Call::Read(_) => running.to_vec(),
            Call::Write { id, .. } | Call::Drop { id, .. } => {
                let mut after = self.during(running);
                if let Some(page) = self.programmed().filter(|_| self.two_planes()) {
                    after.push(Running { id: *id, page, before: page_of(&self.before.array, page).to_vec() });
                }
                after
            }
            Call::Format(_) | Call::Recover(_) | Call::Lone { .. } | Call::Commit(_) | Call::Checkpoint | Call::Reclaim => Vec::new(),
        }
    }
}
