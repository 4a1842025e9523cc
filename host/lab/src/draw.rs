//! The flash as a picture: one SVG of a world, and one HTML page with a slider through the steps. Both stand by themselves. Blocks are
//! columns, pages are cells; every colour has a letter or a pattern beside it, so that a print in black and white can be read.
use crate::{
    history::{Cell, History, Step},
    look::{state_line, zone_css, Look, Words, KINDS},
    view::Zone,
    words::geometry_words,
    world::World,
};
use layout::{fill, short_words, width_of, Form, Head, Layout};
use std::collections::HashSet;

mod layout;

const STYLE: &str = include_str!("lab.css");
const PAGE_STYLE: &str = include_str!("page.css");
const PAGE_SCRIPT: &str = include_str!("page.js");

const CONTROLS: &str = "\
<span id=\"count\"></span><input type=\"range\" id=\"slider\" min=\"0\" value=\"0\" aria-label=\"step\">
<button id=\"first\" title=\"first step (Home)\">|◀</button><button id=\"back\" title=\"one step back (left arrow)\">◀</button>
<button id=\"on\" title=\"one step on (right arrow)\">▶</button><button id=\"last\" title=\"last step (End)\">▶|</button><button id=\"play\">play</button>
<button id=\"smaller\" title=\"smaller (-)\">−</button><button id=\"fit\" title=\"the whole flash (0)\">fit</button><button id=\"larger\" title=\"larger (+)\">+</button>
<button id=\"list\" title=\"show or hide the list of steps (S)\">steps</button><button id=\"key\" title=\"show or hide the legend (L)\">legend</button>";
const CAPTION: &str = "\
<div id=\"caption\"><span id=\"text\"></span><span id=\"said\"></span></div><div id=\"state\"></div>
<div id=\"tell\">Point at a page to read it; click to keep it and to mark the pages of its identifier. Keys: ← → Home End for steps, S list of steps, L legend, + − 0 size.</div>";

/// Text inside markup.
fn escaped(text: &str) -> String {
    text.replace('&', "&amp;").replace('<', "&lt;").replace('>', "&gt;").replace('"', "&quot;")
}

/// A page in its place. What it tells may hold anything, so that field is filled last.
fn cell(layout: &Layout, form: &Form, template: &str, k: usize, cell: Cell, words: &Words) -> String {
    let (x, y) = layout.at(k);
    let kind = &KINDS[cell.look as usize];
    let name = format!("page {k} (block {}, page {})", k / layout.pages(), k % layout.pages());
    let dash = if words.tell.is_empty() { "" } else { " - " };
    let tell = escaped(&format!("{name}: {}{dash}{}", words.tell, kind.words));
    let sizes: Vec<String> = layout.sizes(form, words).iter().map(f64::to_string).collect();
    let numbers = [x.to_string(), y.to_string(), k.to_string(), (cell.edges >> 2).to_string(), (cell.edges & 3).to_string()];
    let mut fields = vec![("css", kind.css), ("letter", kind.letter)];
    fields.extend(["x", "y", "k", "line", "sides"].into_iter().zip(numbers.iter().map(String::as_str)));
    fields.extend(["s0", "s1", "s2", "s3"].into_iter().zip(sizes.iter().map(String::as_str)));
    fields.extend(short_words(words));
    fields.push(("tell", &tell));
    fill(template, &fields)
}

/// A pattern of one tile: its size, its ground, and what is drawn on it.
fn pattern(id: &str, (w, h): (u8, u8), turned: u8, ground: &str, drawn: &str) -> String {
    format!(
        "<pattern id=\"{id}\" width=\"{w}\" height=\"{h}\" patternUnits=\"userSpaceOnUse\" patternTransform=\"rotate({turned})\">\
         <rect width=\"{w}\" height=\"{h}\" fill=\"{ground}\"/>{drawn}</pattern>"
    )
}

/// Patterns and outlines.
fn definitions(layout: &Layout) -> String {
    let (w, h) = layout.cell;
    let mut text = format!("<defs><pattern id=\"grid\" width=\"{w}\" height=\"{h}\" patternUnits=\"userSpaceOnUse\" y=\"{}\">", layout.top);
    text += &format!("<path d=\"M0 {h}H{w}\" stroke=\"#bbb\" stroke-width=\".6\"/></pattern>");
    text += &pattern("pa", (8, 8), 45, "#dcebff", "<rect width=\"3\" height=\"8\" fill=\"#5b93e0\"/>");
    text += &pattern("px", (7, 7), 0, "#fff0e0", "<path d=\"M0 0L7 7M7 0L0 7\" stroke=\"#d9741a\" stroke-width=\"1.1\"/>");
    text += &pattern("pt", (8, 6), 0, "#fff", "<path d=\"M0 5L4 1L8 5\" stroke=\"#d03030\" stroke-width=\"1.1\" fill=\"none\"/>");
    text += &pattern("pp", (6, 6), 0, "#fff", "<rect width=\"6\" height=\"2.4\" fill=\"#b493dd\"/>");
    text += &pattern("pu", (6, 6), 45, "#fff", "<rect width=\"3\" height=\"6\" fill=\"#f0c050\"/>");
    for sides in 0..4 {
        let upper = if sides & 1 == 1 { format!("M0 0H{w}") } else { String::new() };
        let lower = if sides & 2 == 2 { format!("M0 {h}H{w}") } else { String::new() };
        text += &format!("<path id=\"s{sides}\" d=\"M0 0V{h}M{w} 0V{h}{upper}{lower}\"/>");
    }
    text + "</defs>"
}

/// A column: its background, and its head with number and zone.
fn column(layout: &Layout, b: usize, css: &str, words: &str) -> String {
    let ((w, _), middle) = (layout.cell, layout.cell.0 / 2.0);
    let x = layout.left + b as f64 * layout.column;
    let (height, head) = (layout.head_height, layout.top - layout.head_height - 2.0);
    let (name, size, small) = match (layout.head, layout.plane(b)) {
        (Head::Block, None) => (format!("block {b}"), 17, 16),
        (Head::Block, Some(plane)) => (format!("block {b} {plane}"), 15, 16),
        (Head::Words, None) => (b.to_string(), 26, 16),
        (Head::Words, Some(plane)) => (format!("{b} {plane}"), 22, 16),
        (Head::Letters, _) => (b.to_string(), 19, 18),
        (Head::Narrow, _) => (b.to_string(), 10, 12),
    };
    let (upper, lower) = (head + 0.42 * height, head + 0.88 * height);
    let body = format!("y=\"{}\" width=\"{w}\" height=\"{}\"", layout.top, layout.bottom() - layout.top);
    format!(
        "<g id=\"b{b}\" class=\"block {css}\" transform=\"translate({x},0)\"><rect class=\"head\" y=\"{head}\" width=\"{w}\" height=\"{height}\"/>\
         <text class=\"nr\" x=\"{middle}\" y=\"{upper}\" font-size=\"{size}\">{name}</text><text class=\"zone\" x=\"{middle}\" y=\"{lower}\" font-size=\"{small}\">{words}</text>\
         <rect class=\"bg\" {body}/><rect class=\"grid\" {body}/></g>\n"
    )
}

/// Numbers beside the rows, or every eighth where they are low; where columns are narrow, also above every eighth.
fn ticks(layout: &Layout) -> String {
    let mut text = String::new();
    let narrow = layout.head == Head::Narrow;
    let step = if layout.low() { 8 } else { 1 };
    let size = if narrow { 26.0 } else { 17.0 };
    for q in (0..layout.pages()).step_by(step) {
        let y = layout.top + (q as f64 + 0.5) * layout.cell.1 + 0.36 * size;
        text += &format!("<text class=\"tick\" x=\"{}\" y=\"{y}\" font-size=\"{size}\" text-anchor=\"end\">{q}</text>", layout.left - 6.0);
    }
    if narrow {
        for b in (0..layout.blocks()).step_by(8) {
            let x = layout.left + b as f64 * layout.column;
            text += &format!("<text class=\"tick\" x=\"{x}\" y=\"26\" font-size=\"28\">{b}</text>");
        }
    }
    text
}

/// The legend, each with a sample of 28 by 16: the kinds that there are in these steps, the zones, and the lines.
fn legend(layout: &Layout, history: &History) -> Vec<(String, String)> {
    let mut items = Vec::new();
    let mut put = |sample: String, words: &str| items.push((sample, words.to_string()));
    let used: HashSet<Look> = history.steps.iter().flat_map(|s| &s.runs).map(|r| r.cell.look).collect();
    for kind in KINDS.iter().filter(|kind| kind.look != Look::Erased && used.contains(&kind.look)) {
        let letter = format!("<text class=\"l\" x=\"14\" y=\"13\" font-size=\"12\" text-anchor=\"middle\">{}</text>", kind.letter);
        put(format!("<g class=\"cell {}\"><rect class=\"r\" width=\"28\" height=\"16\"/>{letter}</g>", kind.css), kind.words);
    }
    put("<rect width=\"28\" height=\"16\" fill=\"#fff\" stroke=\"#bbb\"/>".into(), KINDS[Look::Erased as usize].words);
    for zone in Zone::ALL.into_iter().filter(|z| *z != Zone::Unknown) {
        let (css, letters) = zone_css(zone);
        let letters = if layout.short() { letters } else { "" };
        let head = format!("<rect class=\"head\" width=\"28\" height=\"16\"/><text x=\"14\" y=\"12\" font-size=\"11\">{letters}</text>");
        put(format!("<g class=\"block {css}\">{head}</g>"), &format!("block: {}", zone.word()));
    }
    put("<path class=\"edge e2\" d=\"M2 1H26V15H2Z\"/>".into(), "pages of one change or checkpoint");
    put("<path class=\"edge e3\" d=\"M2 1H26V15H2Z\"/>".into(), "pages of an open change");
    put("<rect class=\"next\" x=\"1\" y=\"1\" width=\"26\" height=\"14\"/>".into(), "page to be programmed next");
    put("<path class=\"pointer\" d=\"M7 2H21L14 14Z\"/>".into(), "pointer: free blocks are taken from here");
    let sign = |sign: &str| format!("<text x=\"14\" y=\"13\" font-size=\"12\" text-anchor=\"middle\">{sign}</text>");
    put(sign("▲3"), "mark: its change has 3 pages; v: version");
    if layout.plane(0).is_some() {
        put(sign("#2"), "write number: the second write of its change");
    }
    items
}

/// The flash itself; `id`s let a page change it.
fn flash(layout: &Layout, zones: &[(&str, String)], cells: &str, next: Option<usize>, pointer: u8) -> String {
    let (w, h) = layout.cell;
    let mut text = format!("<style>{STYLE}</style>\n");
    text += &definitions(layout);
    for (b, (css, words)) in zones.iter().enumerate() {
        text += &column(layout, b, css, words);
    }
    text += &ticks(layout);
    let (middle, tip) = (w / 2.0, layout.top - layout.head_height - 4.0);
    let shape = format!("M{} {}H{}L{middle} {tip}Z", middle - 6.0, tip - 12.0, middle + 6.0);
    text += &format!(
        "<path id=\"pointer\" class=\"pointer\" d=\"{shape}\" transform=\"translate({},0)\"/>",
        layout.left + pointer as f64 * layout.column
    );
    text += &format!("<g id=\"cells\">{cells}</g>\n");
    let (x, y) = next.map_or((0.0, 0.0), |k| layout.at(k));
    let hidden = if next.is_some() { "" } else { " style=\"display:none\"" };
    text + &format!(
        "<rect id=\"next\" class=\"next\" x=\"1\" y=\"1\" width=\"{}\" height=\"{}\" transform=\"translate({x},{y})\"{hidden}/>",
        w - 2.0,
        h - 2.0
    )
}

/// A picture of this width, from `above` its zero to `height`, with cells of this form.
fn picture(layout: &Layout, form: usize, (width, above, height): (f64, f64, f64), drawn: &str) -> String {
    let low = if layout.low() { "low" } else { "" };
    let size = format!("0 {} {width} {}", -above, height + above);
    format!("<svg xmlns=\"http://www.w3.org/2000/svg\" id=\"flash\" class=\"{low} f{form}\" viewBox=\"{size}\">\n{drawn}</svg>\n")
}

/// A text in lines of at most this width, in units of their size, broken only behind `; `.
fn broken(text: &str, most: f64) -> Vec<String> {
    let mut lines: Vec<String> = Vec::new();
    for part in text.split_inclusive("; ") {
        match lines.last_mut() {
            Some(line) if width_of(line) + width_of(part.trim_end()) <= most => *line += part,
            _ => lines.push(part.into()),
        }
    }
    lines
}

/// The flash on a sheet: a text above it and the legend's items below, both of one size on the sheet however wide the flash is.
fn sheet(layout: &Layout, form: usize, text: &str, flash: &str, items: &[(String, String)]) -> String {
    let width = layout.width().max(900.0);
    let scale = width / 1100.0;
    let (columns, pitch, row, size) = (3, 360.0, 18.0 * scale, 13.0 * scale);
    let lines = broken(text, (width - 24.0) / size);
    let above = row * lines.len() as f64 + 6.0 * scale;
    let height = layout.bottom() + scale * (30.0 + 20.0 * items.len().div_ceil(columns) as f64);
    let mut text = format!("<rect y=\"{}\" width=\"{width}\" height=\"{}\" fill=\"#fff\"/>", -above, height + above);
    for (i, line) in lines.iter().enumerate() {
        let (y, size) = (row * (i as f64 + 0.9) - above, size.min((width - 24.0) / width_of(line)));
        text += &format!("<text x=\"12\" y=\"{y:.1}\" font-size=\"{size:.1}\">{}</text>", escaped(line.trim_end()));
    }
    text += flash;
    text += &format!("<g transform=\"translate(0,{}) scale({scale})\">", layout.bottom() + 14.0);
    for (spot, (sample, words)) in items.iter().enumerate() {
        let (x, y) = (12.0 + (spot % columns) as f64 * pitch, 6.0 + (spot / columns) as f64 * 20.0);
        let size = 12f64.min((pitch - 40.0) / width_of(words));
        text += &format!("<g transform=\"translate({x},{y})\">{sample}<text x=\"34\" y=\"12\" font-size=\"{size:.1}\">{words}</text></g>");
    }
    picture(layout, form, (width, above, height), &(text + "</g>"))
}

/// The world as it stands, in one SVG.
pub fn svg(world: &World) -> String {
    let layout = Layout::of(world.geometry);
    let mut history = History::default();
    history.record(world, "", "");
    let step = &history.steps[0];
    let forms = layout.forms();
    let paper = layout.on_paper(&forms);
    let template = layout.cell_markup(&forms[paper]);
    let mut cells = String::new();
    for run in step.runs.iter().filter(|r| r.cell.look != Look::Erased) {
        for k in run.first..run.first + run.pages {
            cells += &cell(&layout, &forms[paper], &template, k, run.cell, &history.words[run.cell.words as usize]);
        }
    }
    let view = world.view();
    let words = |b: usize, words: &str| if layout.short() { zone_css(view.zones[b]).1.into() } else { words.to_string() };
    let zones: Vec<(&str, String)> = step.zones.iter().map(|(b, css, text)| (*css, words(*b, text))).collect();
    let flash = flash(&layout, &zones, &cells, step.next, step.pointer);
    sheet(&layout, paper, &state_line(world), &flash, &legend(&layout, &history))
}

/// A text as JSON, made safe for markup first.
fn json(text: &str) -> String {
    let mut out = String::from("\"");
    for c in escaped(text).chars() {
        match c {
            '\\' => out += "\\\\",
            c if (c as u32) < 32 => out += &format!("\\u{:04x}", c as u32),
            c => out.push(c),
        }
    }
    out + "\""
}

fn list(items: impl Iterator<Item = String>) -> String {
    format!("[{}]", items.collect::<Vec<_>>().join(","))
}

fn step_json(step: &Step) -> String {
    let runs = list(step.runs.iter().map(|r| format!("[{},{},{},{},{}]", r.first, r.pages, r.cell.look as u8, r.cell.edges, r.cell.words)));
    let zones = list(step.zones.iter().map(|(b, css, words)| format!("[{b},\"{css}\",{}]", json(words))));
    let next = step.next.map_or(-1, |k| k as i64);
    format!(
        "{{\"text\":{},\"said\":{},\"state\":{},\"runs\":{runs},\"zones\":{zones},\"next\":{next},\"pointer\":{}}}",
        json(&step.text),
        json(&step.said),
        json(&step.state),
        step.pointer
    )
}

/// Every step in one page.
pub fn html(history: &History) -> Result<String, String> {
    let Some(g) = history.geometry else { return Err("there is nothing to draw yet: no step was made".into()) };
    let layout = Layout::of(g);
    let forms = layout.forms();
    let kinds = list(KINDS.iter().map(|k| format!("[\"{}\",\"{}\",{}]", k.css, k.letter, json(k.words))));
    let words = list(history.words.iter().map(|w| {
        let short = [&w.one, &w.two, &w.mark, &w.version, &w.tell].map(|t| json(t)).join(",");
        format!("[{short},{},{}]", w.id, list(forms.iter().map(|f| format!("{:?}", layout.sizes(f, w)))))
    }));
    let letters = Zone::ALL.map(zone_css).map(|(css, letters)| format!("\"{css}\":\"{letters}\"")).join(",");
    let quoted = |text: String| text.replace('\\', "\\\\").replace('"', "\\\"").replace("</", "<\\/");
    let templates = list(forms.iter().map(|f| format!("[\"{}\",{}]", quoted(layout.cell_markup(f)), f.least)));
    let steps = list(history.steps.iter().map(|s| format!("\n{}", step_json(s))));
    let measures = [
        ("left", layout.left),
        ("top", layout.top),
        ("column", layout.column),
        ("row", layout.cell.1),
        ("width", layout.width()),
        ("height", layout.height()),
        ("paper", layout.on_paper(&forms) as f64),
    ];
    let measures = measures.map(|(name, value)| format!("\"{name}\":{value}")).join(",");
    let data = format!(
        "const lab={{\"blocks\":{},\"pages\":{},{measures},\"short\":{},\"forms\":{templates},\"kinds\":{kinds},\
         \"letters\":{{{letters}}},\n\"words\":{words},\n\"steps\":{steps}}};",
        g.blocks,
        g.pages,
        layout.short()
    );
    let zones: Vec<(&str, String)> = (0..layout.blocks()).map(|_| ("zq", String::new())).collect();
    let picture = picture(&layout, 0, (layout.width(), 0.0, layout.height()), &flash(&layout, &zones, "", None, 2));
    let item = |(sample, words)| format!("<li><svg viewBox=\"-1 -1 30 18\">{sample}</svg>{words}</li>\n");
    let legend: String = legend(&layout, history).into_iter().map(item).collect();
    let title = format!("The flash, step by step: {}", geometry_words(g));
    Ok(format!(
        "<!DOCTYPE html>\n<html lang=\"en\"><head><meta charset=\"utf-8\"><meta name=\"viewport\" content=\"width=device-width\"><title>{title}</title>\n\
         <style>{PAGE_STYLE}</style></head>\n<body><header><b id=\"title\">{title}</b><div id=\"bar\">{CONTROLS}</div>\n{CAPTION}</header>\n\
         <main><div id=\"picture\">{picture}</div><ol id=\"steps\"></ol></main>\n<ul id=\"legend\">{legend}</ul>\n\
         <script>{data}\n{PAGE_SCRIPT}</script></body></html>\n"
    ))
}

#[cfg(test)]
mod tests {
    use super::*;
    use crate::session::Session;

    #[test]
    fn a_long_text_is_broken_behind_its_parts() {
        assert_eq!(broken("short", 9.0), ["short"]);
        assert_eq!(broken("one; two; three", 7.0), ["one; two; ", "three"]);
        assert_eq!(broken("a part that is too long; b", 3.0), ["a part that is too long; ", "b"]);
    }

    #[test]
    fn planes_numbers_and_pages_that_run_are_drawn_and_explained() {
        let mut session = Session::default();
        let mut svg_after = |lines: &[&str]| {
            lines.iter().for_each(|line| assert!(session.line(line, &mut Vec::new()).is_ok(), "{line}"));
            svg(session.world.as_ref().unwrap())
        };
        let running = svg_after(&["format-to-the-end 8 8 16 2", "begin 5", "write 5 3 1", "write 5 4 2", "write 5 3 3"]);
        let cell = |svg: &str, k: usize| svg.split("<g class=").find(|part| part.contains(&format!("id=\"p{k}\""))).unwrap_or("").to_string();
        for (k, number) in [(16, 1), (24, 2)] {
            let words = format!("TxID 5, TxVer 0, Kind 0 data, Reserved {number}, ");
            let cell = cell(&running, k);
            assert!(cell.contains(&words) && cell.contains(">R<") && cell.contains(&format!(">id 5 #{number}<")), "{cell}");
        }
        for part in [">block 2 even<", ">block 3 odd<", "; running: 16 24<", KINDS[Look::Running as usize].words, "write number: "] {
            assert!(running.contains(part), "{part}");
        }
        let on = svg_after(&["write 5 4 4"]);
        assert!(cell(&on, 16).contains(">A<") && cell(&on, 17).contains(">R<") && cell(&on, 24).contains(">R<"));
        let done = svg_after(&["commit 5"]);
        assert!(!done.contains(">R<") && !done.contains("running"));
        let one = svg_after(&["format-to-the-end 8 8 16", "begin 5", "write 5 3 1", "write 5 4 2"]);
        assert!(one.contains(">block 2<") && !one.contains(">R<") && !one.contains("Reserved") && !one.contains("write number"));
    }

    #[test]
    fn pages_that_hold_all_the_same_are_drawn_and_explained() {
        let mut session = Session::default();
        let erased = format!("raw 18 {}", "FF".repeat(528));
        let lines = ["format-to-the-end 8 8 16", "lone 1 1", "lone 2 2", "lone 3 3", "lone 4 4", "byte 8448 0", "page 17 5 9 1 0 2 0 0", &erased];
        for line in lines {
            assert!(session.line(line, &mut Vec::new()).is_ok());
        }
        let svg = svg(session.world.as_ref().unwrap());
        let told = ["page 16 (block 2, page 0): torn by ", "page 17 (block 2, page 1): whole; LPN 9", "page 18 (block 2, page 2): erased, and yet"];
        let looks = [Look::TornHolds, Look::HoldsAnother, Look::ErasedHolds];
        for (told, look) in told.iter().zip(looks) {
            let kind = &KINDS[look as usize];
            assert!(svg.contains(told) && svg.contains(&format!("{}</title>", kind.words)) && svg.contains(&format!(">{}</text></g>", kind.words)));
            assert!(html(&session.history).unwrap().contains(&format!("</svg>{}</li>", kind.words)));
        }
    }
}
