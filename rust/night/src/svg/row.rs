//! A row of the picture: a head, or an area of the drum.

use super::{Drawing, BAR, LOWER};
use crate::sheets::{label_width, Sheet, LEFT, ROW};
use crate::tracks::{Holding, Row, Span, Track};

/// Where a bar begins in its row, so that marks above and below it are seen, and are inside the row.
const BAR_TOP: f64 = 1.4;
const EDGE: f64 = 0.5;

impl Drawing {
    pub fn row(&mut self, sheet: &Sheet, row: &Row, y: f64) {
        let right = sheet.edge(sheet.calls.end);
        self.stroke("row", (LEFT, y + ROW), (right, y + ROW));
        self.text(8.0, y + 4.4, &row.name);
        self.mark(sheet, row, &row.down, "down", y + EDGE);
        self.mark(sheet, row, &row.reserved, "reserved", y + ROW / 2.0);
        let top = y + BAR_TOP;
        on_sheet(sheet, &row.holdings).for_each(|span| self.holding(sheet, row, span, top));
        on_sheet(sheet, &row.returning).for_each(|span| self.returning(sheet, row, span, top));
        on_sheet(sheet, &row.holdings).for_each(|span| self.label(sheet, span, top));
        let lower = top + BAR - LOWER;
        on_sheet(sheet, &row.interlock).for_each(|span| self.lower(sheet, row, span, "interlock", "interlock", lower));
        on_sheet(sheet, &row.moves).for_each(|span| {
            let (class, word) = if span.what.stopping { ("stopping", "is stopping") } else { ("moving", "moves") };
            self.lower(sheet, row, span, class, &format!("packet {} {word}", span.what.packet), lower);
        });
        let letters = [(&row.down, "D"), (&row.reserved, "R")]
            .map(|(track, letter)| if holds_last(sheet, track) { letter } else { "" });
        self.text(right + 1.5, y + 4.4, &letters.concat());
    }

    /// What moves, or is locked, in the lower part of a bar.
    fn lower<T>(&mut self, sheet: &Sheet, row: &Row, span: &Span<T>, class: &str, said: &str, y: f64) {
        let said = format!("{}: {said} from call {} to {}", row.name, span.from, span.to);
        self.area(class, between(sheet, span), y, LOWER, &said);
    }

    /// The bar of a holding.
    fn holding(&mut self, sheet: &Sheet, row: &Row, span: &Span<Holding>, top: f64) {
        let Holding { place, id, .. } = &span.what;
        let said = format!("{}: held by {id} in place {place} from call {} to {}", row.name, span.from, span.to);
        self.area("held", between(sheet, span), top, BAR, &said);
    }

    /// The end of a bar, while the head is being returned.
    fn returning(&mut self, sheet: &Sheet, row: &Row, span: &Span<()>, top: f64) {
        let said = format!("{}: being returned from call {} to {}", row.name, span.from, span.to);
        self.area("returning", between(sheet, span), top, BAR, &said);
    }

    /// The ID of a bar's job.
    fn label(&mut self, sheet: &Sheet, span: &Span<Holding>, top: f64) {
        let x = between(sheet, span);
        let Holding { id, area, .. } = &span.what;
        let with_area = area.map(|(first, last)| format!("{id} {first}-{last}"));
        let fits = |text: &&String| label_width(text) <= x.1 - x.0 + 0.01;
        // What goes on and is too narrow here has its ID on the next sheet.
        if let Some(text) = with_area.as_ref().filter(fits).or(Some(id).filter(fits)) {
            self.text(x.0 + 0.6, top + 2.4, text);
        }
    }

    /// A mark, in the upper or the lower half of its own row while it holds. A bar leaves its edge to be seen.
    fn mark(&mut self, sheet: &Sheet, row: &Row, track: &Track<()>, class: &str, y: f64) {
        for span in on_sheet(sheet, track) {
            let said = format!("{}: {class} from call {} to {}", row.name, span.from, span.to);
            self.area(class, between(sheet, span), y, ROW / 2.0 - EDGE, &said);
        }
    }
}

/// The spans of a track that the sheet shows.
fn on_sheet<'t, T>(sheet: &'t Sheet, track: &'t Track<T>) -> impl Iterator<Item = &'t Span<T>> {
    track.0.iter().filter(|span| span.from < sheet.calls.end && sheet.calls.start < span.to)
}

/// Does it hold where the sheet ends?
fn holds_last(sheet: &Sheet, track: &Track<()>) -> bool {
    on_sheet(sheet, track).any(|span| span.to >= sheet.calls.end)
}

fn between<T>(sheet: &Sheet, span: &Span<T>) -> (f64, f64) {
    (sheet.edge(span.from), sheet.edge(span.to))
}
