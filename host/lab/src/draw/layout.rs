//! The measures of a picture: how large its cells are, what they tell at which scale, and how long words are made to fit.
use crate::{look::Words, words::plane_word};
use bokuhira::Geometry;

/// What the head of a column tells.
#[derive(Clone, Copy, PartialEq, Eq)]
pub enum Head {
    /// The word block, its number, its plane where there are two, and its zone.
    Block,
    Words,
    /// The number, and two letters for the zone.
    Letters,
    /// The same, too small to be read where the whole flash is seen: numbers stand above every eighth column.
    Narrow,
}

/// The rows of a cell from top to bottom: what stands at the left of each, and what at the right.
type Rows = &'static [(&'static str, &'static str)];

/// What a cell tells, from its letter alone to all of its words; of each, the ways to set it out.
const FORMS: [&[Rows]; 3] = [
    &[&[("{letter}", "")]],
    &[&[("{letter} {nr}", "")], &[("{letter}", ""), ("{nr}", "")]],
    &[
        &[("{letter} {one}", "{mark}"), ("{two}", ""), ("{version}", "")],
        &[("{letter} {one}", "{mark}"), ("{two}", "{version}")],
        &[("{letter} {one} {two}", "{mark} {version}")],
        &[("{letter}", "{mark}"), ("{nr}", ""), ("{two}", ""), ("{version}", "")],
    ],
];

/// One way to set out a cell.
pub struct Form {
    rows: Rows,
    /// The size of its text where words are not long.
    size: f64,
    centred: bool,
    /// The scale of the picture from which it is taken.
    pub least: f64,
}

/// The size of text, in pixels, from which it can be read.
const READABLE: f64 = 8.0;
/// The width of a sheet in landscape, in pixels.
const SHEET: f64 = 1060.0;
/// The height of all cells for their width, where a flash fills a screen of 1024 × 768 below the page's header.
const SCREEN: f64 = 0.53;

pub struct Layout {
    geometry: Geometry,
    pub head: Head,
    pub head_height: f64,
    pub cell: (f64, f64),
    pub column: f64,
    pub left: f64,
    pub top: f64,
}

impl Layout {
    pub fn of(geometry: Geometry) -> Layout {
        let (head, head_height, width, gap, left, top) = match geometry.blocks {
            ..=10 => (Head::Block, 42.0, 118.0, 5.0, 28.0, 60.0),
            11..=20 => (Head::Words, 52.0, 118.0, 5.0, 28.0, 70.0),
            21..=40 => (Head::Letters, 44.0, 46.0, 4.0, 36.0, 62.0),
            _ => (Head::Narrow, 32.0, 21.0, 3.0, 46.0, 80.0),
        };
        let column = width + gap;
        let height = geometry.blocks as f64 * column * SCREEN / geometry.pages as f64;
        let cell = (width, height.min(1.1 * width).round());
        Layout { geometry, head, head_height, cell, column, left, top }
    }

    pub fn blocks(&self) -> usize {
        self.geometry.blocks as usize
    }

    pub fn pages(&self) -> usize {
        self.geometry.pages as usize
    }

    /// The plane of a block, where there are two.
    pub fn plane(&self, b: usize) -> Option<&'static str> {
        plane_word(self.geometry, b)
    }

    /// Whether heads have no room for the words of their zones.
    pub fn short(&self) -> bool {
        matches!(self.head, Head::Letters | Head::Narrow)
    }

    /// Whether cells are so low that lines have to be thin.
    pub fn low(&self) -> bool {
        self.cell.1 < 24.0
    }

    pub fn width(&self) -> f64 {
        self.left + self.blocks() as f64 * self.column
    }

    /// Where the cells end.
    pub fn bottom(&self) -> f64 {
        self.top + self.pages() as f64 * self.cell.1
    }

    /// The height of the picture of a page.
    pub fn height(&self) -> f64 {
        self.bottom() + 4.0
    }

    pub fn at(&self, k: usize) -> (f64, f64) {
        (self.left + (k / self.pages()) as f64 * self.column, self.top + (k % self.pages()) as f64 * self.cell.1)
    }

    /// What a row leaves free at its left and at its right.
    fn margin(&self) -> f64 {
        1.0 + 0.02 * self.cell.0
    }

    /// The size of text at which these words fill a row.
    fn filling(&self, (left, right): (&str, &str), words: &Words) -> f64 {
        let row = fill(&format!("{left} {right}").replace("{letter}", "M"), &short_words(words));
        (self.cell.0 - 2.0 * self.margin()) / width_of(row.trim()).max(1.0)
    }

    /// Of each form the way in which usual words come out largest. It is taken where its text can be read, or is no smaller than the
    /// letter alone.
    pub fn forms(&self) -> [Form; 3] {
        let text = |text: &str| text.to_string();
        let one = format!("LPN {}", self.geometry.logical.saturating_sub(1));
        let usual = Words { one, two: text("id 99"), mark: text("▲9"), version: text("v99"), ..Words::default() };
        let size = |rows: Rows| rows.iter().map(|r| self.filling(*r, &usual)).fold(0.78 * self.cell.1 / rows.len() as f64, f64::min);
        let alone = size(FORMS[0][0]);
        [0, 1, 2].map(|i| {
            let larger = |best: Rows, way: &Rows| if size(way) > size(best) { *way } else { best };
            let rows = FORMS[i].iter().fold(FORMS[i][0], larger);
            let least = if size(rows) < alone { READABLE / size(rows) } else { 0.0 };
            Form { rows, size: size(rows), centred: i < 2, least }
        })
    }

    /// Which of the forms is for paper.
    pub fn on_paper(&self, forms: &[Form]) -> usize {
        forms.iter().rposition(|form| SHEET / self.width() >= form.least).unwrap_or(0)
    }

    /// The sizes of the rows: long words get smaller letters, so that all of them stay in the cell.
    pub fn sizes(&self, form: &Form, words: &Words) -> Vec<f64> {
        form.rows.iter().map(|row| (10.0 * form.size.min(self.filling(*row, words))).floor() / 10.0).collect()
    }

    /// One cell with its fields open, in braces; the page fills them in as this program does.
    pub fn cell_markup(&self, form: &Form) -> String {
        let (w, h) = self.cell;
        let mut text = String::new();
        for (i, (left, right)) in form.rows.iter().enumerate() {
            let y = (i as f64 + 0.54) * h / form.rows.len() as f64 + 0.36 * form.size;
            let mut put = |x: f64, anchor: &str, words: &str| {
                let words = words.replace("{letter}", "<tspan class=\"l\">{letter}</tspan>");
                text += &format!("<text x=\"{x:.1}\" y=\"{y:.1}\" font-size=\"{{s{i}}}\" text-anchor=\"{anchor}\">{words}</text>");
            };
            if form.centred {
                put(w / 2.0, "middle", left);
            } else {
                put(self.margin(), "start", left);
            }
            if !right.is_empty() {
                put(w - self.margin(), "end", right);
            }
        }
        format!(
            "<g class=\"cell {{css}}\" id=\"p{{k}}\" transform=\"translate({{x}},{{y}})\"><title>{{tell}}</title>\
             <rect class=\"r\" width=\"{w}\" height=\"{h}\"/><use class=\"edge e{{line}}\" href=\"#s{{sides}}\"/>{text}</g>"
        )
    }
}

/// The words of a cell by their names in the forms.
pub fn short_words(words: &Words) -> [(&'static str, &str); 5] {
    [("nr", words.number()), ("one", &words.one), ("two", &words.two), ("mark", &words.mark), ("version", &words.version)]
}

/// A template with these fields, each by its name in braces, one after the other.
pub fn fill(template: &str, fields: &[(&str, &str)]) -> String {
    fields.iter().fold(template.to_string(), |t, (name, value)| t.replace(&format!("{{{name}}}"), value))
}

/// How wide a text comes out, in units of its size, in the widest of the fonts that the style sheet names. Letters of kinds are larger
/// and bold.
pub fn width_of(text: &str) -> f64 {
    let one = |c: char| match c {
        ' ' | 'i' | 'l' | '\'' => 0.36,
        'L' | 'P' => 0.61,
        'N' | '▲' => 0.78,
        'A'..='Z' | 'm' => 1.1,
        _ => 0.64,
    };
    text.chars().map(one).sum()
}

#[cfg(test)]
mod tests {
    use super::*;

    /// The scale at which a flash fills the width of a screen of 1024 pixels, with this part of it for the picture.
    fn on_screen(layout: &Layout, part: f64) -> f64 {
        part * 1004.0 / layout.width()
    }

    fn layout(blocks: u16, pages: u16, logical: u16) -> (Layout, [Form; 3]) {
        let layout = Layout::of(Geometry::new(blocks, pages, logical));
        let forms = layout.forms();
        (layout, forms)
    }

    #[test]
    fn a_small_flash_fills_the_screen_with_large_words() {
        let (layout, forms) = layout(8, 8, 16);
        let scale = on_screen(&layout, 1.0);
        assert!(forms[2].size * scale >= 15.9, "{} pixels", forms[2].size * scale);
        assert!(layout.height() * scale <= 768.0 - 180.0);
        assert!(on_screen(&layout, 0.68) >= forms[2].least, "and has its words beside the list of steps");
        assert_eq!(layout.on_paper(&forms), 2);
    }

    #[test]
    fn a_large_flash_has_letters_as_a_whole_and_logical_pages_from_nearer() {
        let (layout, forms) = layout(128, 64, 1024);
        let scale = on_screen(&layout, 1.0);
        assert!(forms[0].least == 0.0 && forms[1].least > scale);
        assert!(forms[1].least < 6.0 * scale && forms[2].least < 8.0 * scale);
        assert_eq!(layout.on_paper(&forms), 0);
    }

    #[test]
    fn long_numbers_get_smaller_and_usual_ones_do_not() {
        let (layout, forms) = layout(8, 8, 16);
        let words = |id: u32| Words { one: "LPN 15".into(), two: format!("id {id}"), mark: "▲9".into(), version: "v1".into(), ..Words::default() };
        let usual = layout.sizes(&forms[2], &words(41));
        let long = layout.sizes(&forms[2], &words(4294967294));
        assert_eq!(usual.len(), 3);
        assert!(usual.iter().all(|size| *size == usual[0]));
        assert!((long[0], long[2]) == (usual[0], usual[2]) && long[1] < usual[1] && long[1] > 13.0);
    }
}
