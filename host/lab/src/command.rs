//! What a line can say, as data.
use crate::cut::Left;
use bokuhira::{Call, Geometry, State};

#[derive(Clone, PartialEq, Eq, Debug)]
pub enum Show {
    Zones,
    Block(usize),
    Page(usize),
    Map,
    Changes,
    Transactions,
    Book,
    Cut,
    CutBits,
    Checkpoints,
    All,
}

#[derive(Clone, Copy, PartialEq, Eq, Debug)]
pub enum Order {
    First,
    Last,
    But,
}

#[derive(Clone, PartialEq, Eq, Debug)]
pub enum Command {
    Call(Call),
    FormatToTheEnd(Geometry),
    UntilDone(Call),
    Cut(Option<Call>, Left),
    Dark { map: u16, hold: u8 },
    Blank(Geometry),
    Keep,
    Back,
    State(Box<State>),
    Map(usize, u16),
    Byte(usize, u8),
    Page { at: usize, bytes: Vec<u8> },
    Class(usize),
    Torn,
    Show(Show),
    Draw(String),
    Export { file: String, raw: bool },
    Import { file: String, geometry: Option<Geometry> },
    Save(String),
    Report(Option<String>),
    Sweep { call: Call, until_done: bool, order: Order, step: usize },
    Geometry,
    Say(String),
    Help(Option<String>),
    Quit,
}

/// A line: its text without comment and expectation, of that what stands before `/`, its command, and the expectation behind `=`.
#[derive(Clone, PartialEq, Eq, Debug)]
pub struct Line {
    pub text: String,
    pub head: String,
    pub command: Command,
    pub expected: Option<String>,
}
