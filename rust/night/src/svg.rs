//! `night show`: the picture of a night, as SVG: sheets of A4, as many as the night needs.

mod row;

use std::fmt::Write;
use std::ops::Range;

use crate::journal::Journal;
use crate::sheets::{self, text_width, Sheet, CHARACTER, HEIGHT, ROW, TEXT, TOP, WIDTH};
use crate::time::Time;
use crate::tracks::Tracks;

/// What every sheet uses: hatching, crosses, and how each thing looks.
const STYLE: &str = r##"<defs>
<pattern id="stopping" width="1" height="1" patternUnits="userSpaceOnUse" patternTransform="rotate(45)">
<rect width="1" height="1" fill="white"/><rect width="0.5" height="1" fill="black"/></pattern>
<pattern id="interlock" width="1.5" height="1.5" patternUnits="userSpaceOnUse">
<rect width="1.5" height="1.5" fill="white"/>
<path d="M0.2,0.2 1.3,1.3 M1.3,0.2 0.2,1.3" stroke="#b00020" stroke-width="0.35"/></pattern>
</defs>
<style>
text { font-family: "DejaVu Sans Mono", "Liberation Mono", monospace; fill: black }
.held { fill: #dce8f4; stroke: black; stroke-width: 0.2 }
.returning { fill: white; stroke: black; stroke-width: 0.2 }
.moving { fill: #203040 }
.stopping { fill: url(#stopping); stroke: black; stroke-width: 0.15 }
.interlock { fill: url(#interlock); stroke: #b00020; stroke-width: 0.15 }
.down { fill: #f6c8ce; stroke: #b00020; stroke-width: 0.3 }
.reserved { fill: #cfe0f6; stroke: #0050a0; stroke-width: 0.3; stroke-dasharray: 1 0.5 }
.row { stroke: #cccccc; stroke-width: 0.1 }
.call { stroke: #cccccc; stroke-width: 0.1 }
</style>
"##;

/// The upper part of a bar has its text, the lower part what moves.
const BAR: f64 = 4.2;
const LOWER: f64 = 1.4;
/// The height of a line in the list of calls, and how far apart its two columns are.
const LINE: f64 = 3.6;
const COLUMN: f64 = 140.0;

/// A call, as the picture tells of it.
#[derive(Clone, Debug, Default)]
pub struct Note {
    pub time: Option<Time>,
    pub word: String,
    /// The call and its answer, in a line.
    pub text: String,
}

/// What the picture says of its journal.
#[derive(Clone, Debug, Default)]
pub struct Notes {
    pub name: String,
    pub begun: Option<Time>,
    /// Call 1 comes first.
    pub calls: Vec<Note>,
}

impl Notes {
    pub fn new(name: &str, journal: &Journal) -> Notes {
        let calls = journal.calls.iter().map(|answered| {
            let shown = answered.call.shown();
            let first = |text: &[u8]| {
                String::from_utf8_lossy(text.split(|&byte| byte == b'\n').next().unwrap_or_default()).into_owned()
            };
            let answer = answered.answer.text().map_or("..".to_string(), first);
            let word = shown.split(' ').next().unwrap_or_default().to_string();
            Note { time: answered.time, word, text: format!("{shown}: {answer}") }
        });
        Notes { name: name.to_string(), begun: journal.begun, calls: calls.collect() }
    }

    fn call(&self, call: usize) -> Option<&Note> {
        self.calls.get(call.checked_sub(1)?)
    }

    /// The time of a call; that of the beginning for the fresh cell.
    fn time(&self, call: usize) -> Option<Time> {
        if call == 0 {
            self.begun
        } else {
            self.call(call)?.time
        }
    }
}

/// The picture of some calls of a night.
pub struct Picture<'n> {
    tracks: &'n Tracks,
    notes: &'n Notes,
    sheets: Vec<Sheet>,
}

impl Picture<'_> {
    /// The calls from one number to another, the first being 0: the fresh cell.
    pub fn new<'n>(tracks: &'n Tracks, notes: &'n Notes, calls: Range<usize>) -> Picture<'n> {
        Picture { tracks, notes, sheets: sheets::sheets(tracks, calls) }
    }

    /// How many sheets it has.
    pub fn count(&self) -> usize {
        self.sheets.len()
    }

    /// One sheet, counted from 1.
    pub fn sheet(&self, number: usize) -> Option<String> {
        let sheet = self.sheets.get(number.checked_sub(1)?)?;
        let mut drawing = Drawing { svg: String::new() };
        drawing.open();
        drawing.text(8.0, 9.0, &self.title(sheet, number));
        let bottom = TOP + sheet.rows.len() as f64 * ROW;
        drawing.call_numbers(sheet, self.notes, bottom);
        let rows = self.tracks.rows[sheet.rows.clone()].iter();
        for (row, y) in rows.zip((0..).map(|at| TOP + f64::from(at) * ROW)) {
            drawing.row(sheet, row, y);
        }
        drawing.legend(bottom + 7.0);
        drawing.list(sheet, self.notes, bottom + 14.0);
        drawing.line(format_args!("</svg>"));
        Some(drawing.svg)
    }

    /// The journal's name and date, the calls and times of the sheet, and which sheet it is.
    fn title(&self, sheet: &Sheet, number: usize) -> String {
        // Column 0 is the fresh cell, and no call.
        let last = sheet.calls.end - 1;
        let first = sheet.calls.start.max(1).min(last);
        let times = [first, last].map(|call| self.notes.time(call));
        let times = match times {
            [Some(from), Some(to)] if from.day() == to.day() => {
                format!("{}, {} to {} UTC, ", from.date(), from.clock(), to.clock())
            }
            [Some(from), Some(to)] => {
                format!("{} {} to {} {} UTC, ", from.date(), from.clock(), to.date(), to.clock())
            }
            _ => String::new(),
        };
        let name = &self.notes.name;
        format!("Luffgravel: {name}, {times}calls {first} to {last}, sheet {number} of {}", self.sheets.len())
    }
}

/// Text that may be in SVG whatever its characters are.
fn escaped(text: &str) -> String {
    let escape = |char| match char {
        '&' => "&amp;".to_string(),
        '<' => "&lt;".to_string(),
        '>' => "&gt;".to_string(),
        char if char.is_control() || "\u{fffe}\u{ffff}".contains(char) => "?".to_string(),
        char => char.to_string(),
    };
    text.chars().map(escape).collect()
}

/// A sheet that is being drawn.
struct Drawing {
    svg: String,
}

impl Drawing {
    fn line(&mut self, line: std::fmt::Arguments) {
        // Writing to a string does not fail.
        let _ = writeln!(self.svg, "{line}");
    }

    fn open(&mut self) {
        let size = format!(r#"width="{WIDTH}mm" height="{HEIGHT}mm" viewBox="0 0 {WIDTH} {HEIGHT}""#);
        self.line(format_args!(r#"<svg xmlns="http://www.w3.org/2000/svg" {size} font-size="{TEXT}">"#));
        self.svg += STYLE;
        self.line(format_args!(r#"<rect width="{WIDTH}" height="{HEIGHT}" fill="white"/>"#));
    }

    fn text(&mut self, x: f64, y: f64, text: &str) {
        if text.is_empty() {
            return;
        }
        self.line(format_args!(r#"<text x="{x:.2}" y="{y:.2}">{}</text>"#, escaped(text)));
    }

    fn stroke(&mut self, class: &str, from: (f64, f64), to: (f64, f64)) {
        self.line(format_args!(
            r#"<line class="{class}" x1="{:.2}" y1="{:.2}" x2="{:.2}" y2="{:.2}"/>"#,
            from.0, from.1, to.0, to.1
        ));
    }

    /// A box; `said` is shown where a reader points at it.
    fn area(&mut self, class: &str, x: (f64, f64), y: f64, height: f64, said: &str) {
        let (from, width) = (x.0, x.1 - x.0);
        let place = format!(r#"x="{from:.2}" y="{y:.2}" width="{width:.2}" height="{height:.2}""#);
        self.line(format_args!(r#"<rect class="{class}" {place}>"#));
        self.line(format_args!("<title>{}</title></rect>", escaped(said)));
    }

    /// Call numbers along the top, wherever there is room for one; above them the time, where it is another minute, and
    /// beneath them the call's word, where its column has room.
    fn call_numbers(&mut self, sheet: &Sheet, notes: &Notes, bottom: f64) {
        self.text(8.0, TOP - 6.0, "call");
        if notes.begun.is_some() {
            self.text(8.0, TOP - 10.0, "UTC");
        }
        let (mut free, mut time_free) = (0.0, 0.0);
        let mut minute = String::new();
        for call in sheet.calls.clone() {
            let (x, end) = (sheet.edge(call), sheet.edge(call + 1));
            let time = notes.time(call).map_or(String::new(), |time| time.clock()[..5].to_string());
            if time != minute && x >= time_free {
                self.text(x + 0.4, TOP - 10.0, &time);
                time_free = x + text_width(&time) + 1.0;
                minute = time;
            }
            if x < free {
                continue;
            }
            self.stroke("call", (x, TOP - 9.0), (x, bottom));
            self.text(x + 0.4, TOP - 6.0, &call.to_string());
            free = x + text_width(&call.to_string()) + 1.0;
            let word = notes.call(call).map_or("", |note| &note.word);
            if text_width(word) + 0.8 < end - x {
                self.text(x + 0.4, TOP - 2.2, word);
            }
        }
    }

    /// The calls of the sheet with their answers, in two columns, where there is room for all of them.
    fn list(&mut self, sheet: &Sheet, notes: &Notes, top: f64) {
        let calls: Vec<usize> = sheet.calls.clone().filter(|call| notes.call(*call).is_some()).collect();
        let of_column = calls.len().div_ceil(2);
        if top + of_column as f64 * LINE > HEIGHT - 4.0 {
            return;
        }
        for (at, &call) in calls.iter().enumerate() {
            let Some(note) = notes.call(call) else { continue };
            let time = note.time.map_or(String::new(), |time| time.clock() + " ");
            let text: String =
                format!("{call:4} {time}{}", note.text).chars().take((COLUMN / CHARACTER) as usize - 2).collect();
            let (x, y) = (8.0 + (at / of_column) as f64 * COLUMN, top + (at % of_column) as f64 * LINE);
            self.text(x, y, &text);
        }
    }

    fn legend(&mut self, y: f64) {
        let mut x = 8.0;
        for (class, said) in [
            ("held", "held by a job, its ID"),
            ("returning", "being returned"),
            ("moving", "block moves"),
            ("stopping", "stopping"),
            ("interlock", "interlock"),
            ("down", "down (D)"),
            ("reserved", "reserved (R)"),
        ] {
            match class {
                "held" | "returning" | "down" | "reserved" => self.area(class, (x, x + 6.0), y - 2.6, 3.2, said),
                _ => self.area(class, (x, x + 6.0), y - 1.8, LOWER, said),
            }
            self.text(x + 7.2, y, said);
            x += 7.2 + text_width(said) + 4.0;
        }
    }
}
