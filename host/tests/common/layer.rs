//! The two layers behind one interface; the benchmarks use it too.
use super::array::scan_order;
use bokuhira::{Call, Class, State, Store, DATA};

/// The layer that a call goes to: the proved library, or the plain one written apart from it.
#[derive(Clone, Copy, PartialEq, Eq, Debug)]
pub enum Layer {
    Proved,
    Plain,
}

pub const LAYERS: [Layer; 2] = [Layer::Proved, Layer::Plain];

impl Layer {
    /// Carries a call out and gives its number: 0 done, 255 more, else the refusal.
    #[must_use = "a refused call changed nothing"]
    pub fn call(self, store: &mut Store, call: &Call) -> u8 {
        match self {
            Layer::Proved => store.call(call).number(),
            Layer::Plain => plain_call(store, call),
        }
    }

    /// The part that a read hands back, or the refusal.
    pub fn read(self, store: &Store, lpn: u16) -> Result<&[u8], u8> {
        match self {
            Layer::Proved => store.read(lpn).map_err(|r| r.0),
            Layer::Plain => match plain::read(&store.array, &store.map, &store.hold, &store.state, lpn) {
                (0, at) => Ok(&store.array[at..at + DATA]),
                (n, _) => Err(n),
            },
        }
    }

    /// The class of a page; none where it is of another length.
    pub fn class(self, page: &[u8]) -> Option<Class> {
        match self {
            Layer::Proved => Class::of(page),
            Layer::Plain => plain::class(page).map(|class| match class {
                plain::Class::Erased => Class::Erased,
                plain::Class::Whole => Class::Whole,
                plain::Class::Torn(by) => Class::Torn(by),
            }),
        }
    }

    /// How many pages in scan order are torn, by the zone lists of the state.
    pub fn torn(self, store: &Store) -> Option<usize> {
        match self {
            Layer::Proved => {
                let state = State::decode(&store.state)?;
                let torn = |k: &usize| matches!(store.class(*k), Some(Class::Torn(_)));
                Some(scan_order(state.geometry, &state.zones).iter().filter(|k| torn(k)).count())
            }
            Layer::Plain => plain::torn(&store.array, &store.state),
        }
    }
}

fn plain_call(store: &mut Store, call: &Call) -> u8 {
    let Store { array, map, hold, state } = store;
    match call {
        Call::Format(g) => plain::format(array, map, hold, state, g.blocks, g.pages, g.logical, g.planes),
        Call::Recover(g) => plain::recover(array, map, hold, state, g.blocks, g.pages, g.logical, g.planes),
        Call::Begin(id) => plain::begin(array, map, hold, state, *id),
        Call::Write { id, lpn, data } => plain::write(array, map, hold, state, *id, *lpn, data),
        Call::Drop { id, lpn } => plain::drop_page(array, map, hold, state, *id, *lpn),
        Call::Lone { lpn, data } => plain::lone(array, map, hold, state, *lpn, data),
        Call::Commit(id) => plain::commit(array, map, hold, state, *id),
        Call::Abort(id) => plain::abort(array, map, hold, state, *id),
        Call::Read(lpn) => plain::read(array, map, hold, state, *lpn).0,
        Call::Checkpoint => plain::checkpoint(array, map, hold, state),
        Call::Reclaim => plain::reclaim(array, map, hold, state),
    }
}

/// The kind of a call, 0 to 10.
pub fn kind(call: &Call) -> usize {
    match call {
        Call::Format(_) => 0,
        Call::Recover(_) => 1,
        Call::Begin(_) => 2,
        Call::Write { .. } => 3,
        Call::Drop { .. } => 4,
        Call::Lone { .. } => 5,
        Call::Commit(_) => 6,
        Call::Abort(_) => 7,
        Call::Read(_) => 8,
        Call::Checkpoint => 9,
        Call::Reclaim => 10,
    }
}
