//! What `show` prints: zones, blocks, pages, map, changes, book, checkpoints and the cut.
use crate::{
    command::Show,
    data::data_words,
    trace::kind_word,
    view::{Fate, Hold, View, Zone},
    words::{class_words, lpn_words, numbers, page_name, plane_word, plural, torn_words},
    world::World,
};
use bokuhira::{Class, Kind, DATA, UNMAPPED};
use std::ops::Range;

pub fn show(world: &World, what: &Show) -> Result<String, String> {
    let g = world.geometry;
    match what {
        Show::Zones => Ok(zones(world, &world.view())),
        Show::Block(b) if *b < g.blocks as usize => Ok(block(world, &world.view(), *b)),
        Show::Block(b) => Err(format!("there is no block {b}: blocks are 0 to {}", g.blocks - 1)),
        Show::Page(k) if *k < world.pages.list.len() => Ok(page(world, &world.view(), *k)),
        Show::Page(k) => Err(format!("there is no page {k}: pages are 0 to {}", world.pages.list.len() - 1)),
        Show::Map => Ok(map(world, &world.view())),
        Show::Changes => Ok(changes(world)),
        Show::Transactions => Ok(transactions(world, &world.view())),
        Show::Book => Ok(book(world, &world.view())),
        Show::Checkpoints => Ok(checkpoints(world, &world.view())),
        Show::Cut | Show::CutBits => match &world.cut {
            Some(c) => Ok(c.words(g, *what == Show::CutBits)),
            None => Err("no cut fell yet".into()),
        },
        Show::All => Ok(all(world)),
    }
}

fn all(world: &World) -> String {
    let view = world.view();
    let mut text = zones(world, &view) + &checkpoints(world, &view);
    for b in (0..view.zones.len()).filter(|b| !shown(world, &view, *b).is_empty()) {
        text += &block(world, &view, b);
    }
    text += &transactions(world, &view);
    text += &map(world, &view);
    text += &changes(world);
    if world.book.is_some() {
        text += &book(world, &view);
    }
    if let Some(c) = &world.cut {
        text += &c.words(world.geometry, false);
    }
    text
}

fn zones(world: &World, view: &View) -> String {
    let state = world.state();
    let taken = view.newest.map(|i| &view.checkpoints[i]);
    match (&state, &view.refused, taken) {
        (Some(s), ..) if s.work.kind == Kind::Format => return "zones\n  none yet: a format is under way\n".into(),
        (None, Some(why), Some(c)) if why.refusal.0 == 3 => {
            let text = format!("zones\n  {}\n  so they are not known; what stands on its zone page, not to be believed:\n", why.sentence());
            return text + &format!("  available {}, unavailable {}, free {}\n", numbers(&c.available), numbers(&c.unavailable), numbers(&c.free));
        }
        (None, Some(why), _) if !view.zones_known() => return format!("zones\n  {}\n  so they are not known\n", why.sentence()),
        _ => (),
    }
    let source = match (&state, &view.refused) {
        (Some(_), _) => String::new(),
        (None, None) => " (the state is lost: as the newest checkpoint has them)".into(),
        (None, Some(why)) => format!(" (as the newest checkpoint has them)\n  {}", why.sentence()),
    };
    let mut text = format!("zones{source}\n");
    let with_clean = |list: &[u8]| {
        let one = |b: &u8| format!("{b} ({} clean)", view.clean(&world.pages.list, *b as usize));
        if list.is_empty() {
            "none".into()
        } else {
            list.iter().map(one).collect::<Vec<_>>().join(", ")
        }
    };
    let of = |zone: Zone| numbers(&(0..view.zones.len()).filter(|b| view.zones[*b] == zone).collect::<Vec<_>>());
    text += &format!("  available     {}\n", with_clean(&view.available));
    text += &format!("  unavailable   {}\n", numbers(&view.unavailable));
    text += &format!("  free          {}\n", of(Zone::Free));
    text += &format!("  checkpointed  {}\n", of(Zone::Checkpointed));
    if let Some(s) = state {
        let clean: usize = view.available.iter().map(|b| view.clean(&world.pages.list, *b as usize)).sum();
        text += &format!("  {} in all; data goes in while there are more than {}\n", plural(clean, "clean page"), world.geometry.pages);
        text += &format!("  pointer {}, last version {}, checkpoint {} in front block {}", s.zones.pointer, s.version, s.checkpoint, s.front);
        text += &match kind_word(s.work.kind) {
            "idle" => "\n".into(),
            work => format!(", under way: {work}\n"),
        };
    }
    text
}

fn checkpoints(world: &World, view: &View) -> String {
    let mut text = String::from("checkpoints\n");
    match &view.refused {
        Some(why) if why.refusal.0 == 1 => text += &format!("  not known: {}\n", why.short()),
        _ if view.checkpoints.is_empty() => text += "  none is complete\n",
        _ => (),
    }
    for (i, c) in view.checkpoints.iter().enumerate() {
        let newest = match &view.refused {
            _ if view.newest != Some(i) => "",
            Some(why) if why.refusal.0 == 3 => ", the newest, which recover refuses",
            _ => ", the newest",
        };
        text += &format!(
            "  {} from {}{newest}: last version {}, pointer {}, available {}, unavailable {}, free {}\n",
            c.number,
            page_name(world.geometry, c.first),
            c.last_version,
            c.pointer,
            numbers(&c.available),
            numbers(&c.unavailable),
            numbers(&c.free)
        );
    }
    text
}

/// The plane of a block, as in ", even plane"; nothing where there is but one.
fn plane_words(world: &World, b: usize) -> String {
    plane_word(world.geometry, b).map_or(String::new(), |plane| format!(", {plane} plane"))
}

/// Said of a page that runs.
fn runs_words(world: &World, k: usize) -> &'static str {
    if world.runs(k) {
        ", runs"
    } else {
        ""
    }
}

/// A page's transaction, whether the page runs, and whether it holds.
fn fate_words(world: &World, view: &View, k: usize) -> String {
    let p = &world.pages.list[k];
    let fate = match (p.class, view.clauses.get(&k)) {
        (Class::Torn(_), _) => format!("belongs to nobody ({})", torn_words(p)),
        (_, Some(clause)) => format!("{}: {clause}", view.fates[k].word()),
        _ => view.fates[k].word().into(),
    } + runs_words(world, k);
    match view.holds[k] {
        Hold::Unknown | Hold::No => fate,
        Hold::Yes => fate + ", holds",
        Hold::Yet(lpn) => format!("{fate}{}and yet holds LPN {lpn}", if fate.is_empty() { "" } else { ", " }),
    }
}

/// Said of a block or a page where no map is known.
fn holds_unknown(view: &View, b: usize) -> &'static str {
    if view.refused.is_some() && view.zones[b] != Zone::Front {
        "; what holds is not known, since recover refuses"
    } else {
        ""
    }
}

/// The pages of a block that are shown: all up to the last that is not erased, or that holds.
fn shown(world: &World, view: &View, b: usize) -> Range<usize> {
    let pages = view.block(b);
    let seen = |k: &usize| world.pages.list[*k].class != Class::Erased || matches!(view.holds[*k], Hold::Yet(_));
    pages.start..pages.clone().rev().find(seen).map_or(pages.start, |last| last + 1)
}

fn block(world: &World, view: &View, b: usize) -> String {
    let clean = view.clean(&world.pages.list, b);
    let (plane, zone) = (plane_words(world, b), view.zones[b].word());
    let mut text = format!("block {b}{plane}, {zone}, {}{}\n", plural(clean, "clean page"), holds_unknown(view, b));
    let shown = shown(world, view, b);
    // the write numbers, where there are any
    let number = |text: &str| if plane.is_empty() { String::new() } else { format!("  {text:>8}") };
    if !shown.is_empty() {
        text += &format!("  page  class      LPN  TxCnt        TxID       TxVer  Kind{}  transaction\n", number("Reserved"));
    }
    for k in shown {
        let (p, fate) = (&world.pages.list[k], fate_words(world, view, k));
        let line = match p.class {
            Class::Whole => {
                let (kind, number) = (p.kind_word(), number(&p.reserved.to_string()));
                format!("  {k:4}  whole    {:5}  {:5}  {:10}  {:10}  {kind:4}{number}  {fate}", p.lpn, p.cnt, p.id, p.ver)
            }
            Class::Erased if fate.is_empty() => format!("  {k:4}  erased"),
            class => format!("  {k:4}  {:6}       -      -           -           -     -{}  {fate}", class.word(), number("-")),
        };
        text += line.trim_end();
        text += "\n";
    }
    text
}

fn page(world: &World, view: &View, k: usize) -> String {
    let p = &world.pages.list[k];
    let b = k / world.geometry.pages as usize;
    let (plane, zone) = (plane_words(world, b), view.zones[b].word());
    let mut text = format!("{}{plane}, {zone}: {}\n", page_name(world.geometry, k), class_words(p.class));
    if let (Class::Erased | Class::Torn(_), Hold::Yet(lpn)) = (p.class, view.holds[k]) {
        text += &format!("  and yet holds LPN {lpn}: a read gives its data as they stand\n");
    }
    if p.class == Class::Erased {
        return text;
    }
    if p.is_torn() {
        text += "  what stands there, though a torn page belongs to nobody:\n";
    }
    let drop = if p.is_drop() { " (drop)" } else { "" };
    text += &format!("  LPN {}, TxCnt {}, TxID {}, TxVer {}, Kind {}{drop}, Reserved {}\n", p.lpn, p.cnt, p.id, p.ver, p.kind, p.reserved);
    text += &format!("  Zeros {}, counted {}\n", p.zeros, p.counted());
    if p.is_whole() {
        text += &format!("  transaction: {}{}\n", fate_words(world, view, k), holds_unknown(view, b));
    }
    text += &format!("  data: {}\n", data_words(world.data(k)));
    for (i, line) in world.page_bytes(k).chunks(32).enumerate() {
        let hex: Vec<String> = line.iter().map(|b| format!("{b:02X}")).collect();
        text += &format!("  {:3}  {}\n", 32 * i, hex.join(" "));
    }
    text
}

fn map(world: &World, view: &View) -> String {
    match &view.refused {
        Some(why) => return format!("map\n  none: {}\n", why.short()),
        None if world.state().is_none() => return "map\n  lost; recover makes it anew\n".into(),
        None => (),
    }
    let mut text = String::from("map\n");
    for (lpn, k) in world.store.map.iter().enumerate().filter(|(_, k)| **k != UNMAPPED) {
        let k = *k as usize;
        let Some(p) = world.pages.list.get(k) else {
            text += &format!("  LPN {lpn:4} is in page {k}, which there is not\n");
            continue;
        };
        let but = match p.class {
            Class::Whole if p.is_drop() => "; but that page is a drop".into(),
            Class::Whole if p.lpn as usize == lpn => String::new(),
            Class::Whole => format!("; but that page carries LPN {}", p.lpn),
            class => format!("; but that page is {}", class_words(class)),
        };
        text += &format!("  LPN {lpn:4} is in {}: {}{but}\n", page_name(world.geometry, k), data_words(world.data(k)));
    }
    text + &format!("  {} mapped, {} unmapped\n", world.mapped_count(), world.store.map.len() - world.mapped_count())
}

fn changes(world: &World) -> String {
    let mut text = String::from("open changes\n");
    let Some(s) = world.state() else { return text + "  none: the state is lost\n" };
    let mut none = true;
    for (i, p) in s.places.iter().enumerate().filter(|(_, p)| !p.is_free()) {
        none = false;
        text += &format!("  place {i}: identifier {}, {} written\n", p.id, plural(p.lpns.len(), "page"));
        let written: Vec<String> = p.lpns.iter().zip(&p.drops).map(|(lpn, drop)| lpn_words(*drop, *lpn)).collect();
        for (lpn, k) in written.iter().zip(&p.ppns) {
            text += &format!("    {lpn} in {}{}\n", page_name(world.geometry, *k as usize), runs_words(world, *k as usize));
        }
        if let Some(lpn) = written.last() {
            text += &format!("    {lpn} held: {}\n", data_words(&world.store.hold[i * DATA..(i + 1) * DATA]));
        }
    }
    if none {
        text += "  none\n";
    }
    text
}

/// Each transaction in scan order: how many whole pages it has there, what its mark says, and what follows from the two. Without zones
/// there is no scan order: then all whole data pages, and nothing follows.
fn transactions(world: &World, view: &View) -> String {
    let pages = &world.pages.list;
    let known = view.zones_known();
    let scan: Vec<usize> = match known {
        true => view.scan().collect(),
        false => (0..pages.len()).filter(|k| view.zone(*k) != Zone::Front && pages[*k].is_of_change()).collect(),
    };
    let mut text = match known {
        true => String::from("transactions in scan order\n"),
        false => String::from("transactions on whole data pages (no scan order is known, so no count decides)\n"),
    };
    let mut found: Vec<(u32, Vec<usize>)> = Vec::new();
    let (mut lone, mut bad) = (0, 0);
    for k in scan.into_iter().filter(|k| pages[*k].is_whole()) {
        let id = pages[k].id;
        match found.iter_mut().find(|(i, _)| *i == id) {
            _ if id == 0 && view.fates[k] == Fate::Bad => bad += 1,
            _ if id == 0 => lone += 1,
            Some((_, list)) => list.push(k),
            None => found.push((id, vec![k])),
        }
    }
    for (id, list) in &found {
        let mark = list.iter().map(|k| &pages[*k]).find(|p| p.cnt != 0);
        // all pages of an identifier have one fate, but for bad ones
        let fate = list.iter().map(|k| view.fates[*k]).find(|f| *f != Fate::Bad).unwrap_or(Fate::Bad);
        let follows = if known { format!(": {}", fate.word()) } else { String::new() };
        let verdict = match mark {
            _ if fate == Fate::Active => "active".into(),
            None => format!("no mark{follows}"),
            Some(m) => format!("its mark says {} (version {}){follows}", m.cnt, m.ver),
        };
        let counted = plural(list.len(), "page");
        text += &format!("  identifier {id}: {counted} counted, {verdict}; in {}\n", numbers(list));
    }
    if found.is_empty() && lone + bad == 0 {
        text += "  none\n";
    }
    if lone > 0 {
        text += &format!("  {}, {}a transaction by itself\n", plural(lone, "lone page"), if lone == 1 { "" } else { "each " });
    }
    if bad > 0 {
        text += &format!("  {} with TxID 0\n", plural(bad, "bad page"));
    }
    text
}

fn book(world: &World, view: &View) -> String {
    let mut text = String::from("the book beside what reads give\n");
    if world.spoilt {
        text += "  pages or numbers were written by hand: the book does not know of it\n";
    }
    let Some(book) = &world.book else {
        return text + "  no book: no finished format of this session made this flash, so nothing is known of what was asked of it\n";
    };
    let lost = world.lost;
    let (mut same, mut never) = (0, 0);
    for (lpn, said) in book.pages.iter().enumerate() {
        let read = world.store.read(lpn as u16);
        let differs = !lost && said.as_deref() != read.ok();
        same += !differs as usize;
        if said.is_none() && (lost || read.is_err()) {
            never += 1;
            continue;
        }
        let said = said.as_ref().map_or("never written".into(), |d| data_words(d));
        let read = match read {
            _ if view.refused.is_some() => "nothing: recover refuses".into(),
            _ if lost => "nothing before a recover".into(),
            Ok(data) => data_words(data),
            Err(r) => format!("{} {}", r.0, r.word()),
        };
        text += &format!("  LPN {lpn:4}  book {said:<26}  read {read}{}\n", if differs { "  DIFFERS" } else { "" });
    }
    if never > 0 {
        text += &format!("  {} never written\n", plural(never, if never < book.pages.len() { "more logical page" } else { "logical page" }));
    }
    for c in &book.open {
        let write = |(lpn, content): &(u16, Option<Vec<u8>>)| match content {
            Some(data) => format!("LPN {lpn} {}", data_words(data)),
            None => lpn_words(true, *lpn),
        };
        let writes: Vec<String> = c.writes.iter().map(write).collect();
        text +=
            &format!("  open in the book: identifier {}: {}\n", c.id, if writes.is_empty() { "nothing written".into() } else { writes.join(", ") });
    }
    if !lost {
        text += &match book.pages.len() - same {
            0 => format!("  all {same} agree\n"),
            n => format!("  {n} DIFFER\n"),
        };
    }
    text
}
