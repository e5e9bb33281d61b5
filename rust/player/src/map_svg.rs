//! The map of memory as a picture. What a colour tells, a hatching, a frame or a letter tells as well.

use crate::map_text::{container_in_words, irq_lines, mapping_lines, refused_in_words};
use crate::pages::{range, row_around, stretches, Stretch, Written};
use crate::play::RefusedByte;
use glintbasket::{Bench, Rights, PAGE_SIZE};
use std::fmt::Write;

/// More cells than these are not drawn: then a cell stands for several pages.
const CELLS_MAX: u64 = 512;
const COLUMNS: usize = 16;
const CELL_WIDTH: usize = 46;
const CELL_HEIGHT: usize = 36;
const GAP: usize = 4;
const MARGIN: usize = 24;
/// Room for an address at the left of each row.
const LABEL: usize = 110;
const WIDTH: usize = 2 * MARGIN + LABEL + COLUMNS * (CELL_WIDTH + GAP);
const LINE: usize = 22;

/// Hatchings, and the look of each class of shapes.
const DEFINITIONS: &str = r##"<defs>
<pattern id="hatching" width="8" height="8" patternUnits="userSpaceOnUse" patternTransform="rotate(45)">
<rect width="8" height="8" fill="#fff3d6"/><rect width="3" height="8" fill="#d98200"/>
</pattern>
</defs>
<style>
text { font: 13px sans-serif; fill: #1a1a1a }
.title { font: bold 17px sans-serif }
.head { font: bold 14px sans-serif }
.address, .byte { font: 12px monospace }
.end { text-anchor: end }
.middle { text-anchor: middle }
.letters { font: bold 12px sans-serif; text-anchor: middle }
.unwritten { fill: #ffffff; stroke: #8a8a8a }
.in-part { fill: url(#hatching); stroke: #8a8a8a }
.wholly { fill: #2f6db5; stroke: #8a8a8a }
.frame { fill: none; stroke: #111111; stroke-width: 3 }
.plate { fill: #ffffff; stroke: none }
.disc { fill: #c00000; stroke: #ffffff; stroke-width: 2 }
.cross { fill: none; stroke: #ffffff; stroke-width: 2.5 }
</style>
"##;

/// The picture of pages, the container's type, mappings, interrupt lines and the last refused byte.
pub fn draw(title: &str, bench: &Bench, refused: Option<&RefusedByte>) -> String {
    let mut picture = Picture {
        body: String::new(),
        y: MARGIN,
    };
    picture.heading(title, bench);
    picture.grid(bench, refused);
    picture.legend();
    picture.mappings(bench);
    picture.irq_lines(bench);
    picture.refused(bench, refused);
    picture.finish(title)
}

/// What is drawn so far, from the top down to `y`.
struct Picture {
    body: String,
    y: usize,
}

impl Picture {
    fn heading(&mut self, title: &str, bench: &Bench) {
        let size = bench.memory().len() as u64;
        let pages = size.div_ceil(PAGE_SIZE);
        self.line("title", MARGIN, title);
        let each = match pages_per_cell(pages) {
            1 => "each cell is one page".to_string(),
            several => format!("each cell is {several} pages, framed if any is mapped"),
        };
        let text = format!("memory: {size} bytes, pages of {PAGE_SIZE} bytes: {pages}; {each}");
        self.line("", MARGIN, &text);
        self.y += GAP;
    }

    fn grid(&mut self, bench: &Bench, refused: Option<&RefusedByte>) {
        let pages = (bench.memory().len() as u64).div_ceil(PAGE_SIZE);
        let cells: Vec<Stretch> = stretches(bench, pages_per_cell(pages)).collect();
        for row in cells.chunks(COLUMNS) {
            let label = format!("{:#x}", row[0].start);
            let baseline = self.y + CELL_HEIGHT / 2 + 4;
            self.text("address end", MARGIN + LABEL - 10, baseline, &label);
            for (column, cell) in row.iter().enumerate() {
                let x = MARGIN + LABEL + column * (CELL_WIDTH + GAP);
                self.cell(x, cell, bench, refused);
            }
            self.y += CELL_HEIGHT + GAP;
        }
        self.y += 2 * GAP;
    }

    fn cell(&mut self, x: usize, cell: &Stretch, bench: &Bench, refused: Option<&RefusedByte>) {
        let told = format!(
            "memory {}: {} of {} bytes written",
            range(cell.start, cell.length),
            cell.written_bytes,
            cell.length
        );
        let _ = writeln!(self.body, "<g><title>{told}</title>");
        self.cell_shape(x, cell.written(), letters(cell.rights(bench)));
        let memory = refused.and_then(|refused| refused.memory);
        if memory.is_some_and(|memory| cell.contains(memory.0)) {
            self.refusal_mark(x, CELL_WIDTH);
        }
        self.body.push_str("</g>\n");
    }

    /// A cell's filling, and for a mapped one a frame and the letters of its rights.
    fn cell_shape(&mut self, x: usize, written: Written, letters: &str) {
        self.rectangle(class(written), x, self.y, CELL_WIDTH, CELL_HEIGHT);
        if letters.is_empty() {
            return;
        }
        self.rectangle("frame", x, self.y, CELL_WIDTH, CELL_HEIGHT);
        let (plate, middle) = (9 * letters.len() + 6, x + CELL_WIDTH / 2);
        self.rectangle("plate", middle - plate / 2, self.y + 16, plate, 16);
        self.text("letters", middle, self.y + 28, letters);
    }

    /// A disc with a cross in the upper right corner of the refused byte's cell.
    fn refusal_mark(&mut self, x: usize, width: usize) {
        let (x, y) = (x + width - 8, self.y + 8);
        let (left, right, top, bottom) = (x - 4, x + 4, y - 4, y + 4);
        let _ = writeln!(
            self.body,
            concat!(
                r#"<circle class="disc" cx="{}" cy="{}" r="9"/>"#,
                r#"<path class="cross" d="M{} {} L{} {} M{} {} L{} {}"/>"#
            ),
            x, y, left, top, right, bottom, left, bottom, right, top
        );
    }

    fn legend(&mut self) {
        self.line("head", MARGIN, "Legend");
        let entries = [
            (Written::Not, "", false, "not written, or forgotten since"),
            (Written::InPart, "", false, "written in part"),
            (Written::Wholly, "", false, "written"),
            (Written::Not, "R", false, "mapped: the card may read (R)"),
            (Written::Not, "W", false, "mapped: the card may write (W)"),
            (Written::Not, "RW", false, "mapped: read and write (RW)"),
            (Written::Not, "", true, "holds the last refused byte"),
        ];
        let column = (WIDTH - 2 * MARGIN) / 3;
        for row in entries.chunks(3) {
            for (index, &(written, letters, crossed, text)) in row.iter().enumerate() {
                let x = MARGIN + index * column;
                self.cell_shape(x, written, letters);
                if crossed {
                    self.refusal_mark(x, CELL_WIDTH);
                }
                self.text("", x + CELL_WIDTH + 8, self.y + CELL_HEIGHT / 2 + 4, text);
            }
            self.y += CELL_HEIGHT + 2 * GAP;
        }
        self.y += GAP;
    }

    fn mappings(&mut self, bench: &Bench) {
        let mappings = bench.mappings();
        self.line("head", MARGIN, &format!("Mappings: {}", mappings.len()));
        let container = format!("container: {}", container_in_words(bench));
        self.line("", MARGIN, &container);
        for (number, text) in mapping_lines(mappings) {
            self.line("", MARGIN, &format!("{number}  {text}"));
        }
        self.y += 2 * GAP;
    }

    fn irq_lines(&mut self, bench: &Bench) {
        let lines = irq_lines(bench);
        let head = format!("Interrupt lines set up: {}", lines.len());
        self.line("head", MARGIN, &head);
        for text in lines {
            self.line("", MARGIN, &text);
        }
        self.y += 2 * GAP;
    }

    fn refused(&mut self, bench: &Bench, refused: Option<&RefusedByte>) {
        self.line("head", MARGIN, "Last refused byte");
        let Some(refused) = refused else {
            return self.line("", MARGIN, "none");
        };
        self.line("", MARGIN, &refused_in_words(refused));
        if let Some(memory) = refused.memory {
            let text = format!(
                "The bytes around it when the session ended, from {:#x} on:",
                row_around(bench, memory.0).0
            );
            self.line("", MARGIN, &text);
            self.bytes(bench, memory.0);
        }
    }

    /// The row of bytes that holds an address; the values of written ones are shown.
    fn bytes(&mut self, bench: &Bench, address: u64) {
        let (start, bytes) = row_around(bench, address);
        let width = CELL_HEIGHT;
        for (offset, byte) in bytes.iter().enumerate() {
            let x = MARGIN + offset * (width + GAP);
            let class = class(byte.map_or(Written::Not, |_| Written::Wholly));
            self.rectangle(class, x, self.y, width, CELL_HEIGHT);
            if let Some(byte) = byte {
                self.rectangle("plate", x + 6, self.y + 16, width - 12, 16);
                let text = format!("{byte:02x}");
                self.text("byte middle", x + width / 2, self.y + 28, &text);
            }
            if start + offset as u64 == address {
                self.refusal_mark(x, width);
            }
        }
        self.y += CELL_HEIGHT + GAP;
    }

    /// A line of text, and the place below it.
    fn line(&mut self, class: &str, x: usize, text: &str) {
        self.text(class, x, self.y + 14, text);
        self.y += LINE;
    }

    fn text(&mut self, class: &str, x: usize, y: usize, text: &str) {
        let text = escaped(text);
        let _ = writeln!(
            self.body,
            r#"<text class="{class}" x="{x}" y="{y}">{text}</text>"#
        );
    }

    fn rectangle(&mut self, class: &str, x: usize, y: usize, width: usize, height: usize) {
        let _ = writeln!(
            self.body,
            r#"<rect class="{class}" x="{x}" y="{y}" width="{width}" height="{height}"/>"#
        );
    }

    fn finish(self, title: &str) -> String {
        let height = self.y + MARGIN;
        let size = format!(r#"width="{WIDTH}" height="{height}" viewBox="0 0 {WIDTH} {height}""#);
        format!(
            concat!(
                "<svg xmlns=\"http://www.w3.org/2000/svg\" {} role=\"img\">\n",
                "<title>{}</title>\n{}",
                "<rect width=\"{}\" height=\"{}\" fill=\"#fafafa\"/>\n{}</svg>\n"
            ),
            size,
            escaped(title),
            DEFINITIONS,
            WIDTH,
            height,
            self.body
        )
    }
}

/// The least power of two that leaves no more cells than are drawn.
fn pages_per_cell(pages: u64) -> u64 {
    pages.div_ceil(CELLS_MAX).max(1).next_power_of_two()
}

fn class(written: Written) -> &'static str {
    match written {
        Written::Not => "unwritten",
        Written::InPart => "in-part",
        Written::Wholly => "wholly",
    }
}

/// What stands in a cell for the rights by which it is mapped.
fn letters(rights: Rights) -> &'static str {
    match rights.0 {
        0 => "",
        1 => "R",
        2 => "W",
        _ => "RW",
    }
}

/// Text as XML writes it; characters that XML cannot have are shown as one that it can.
fn escaped(text: &str) -> String {
    let mut escaped = String::new();
    for c in text.chars() {
        match c {
            '&' => escaped.push_str("&amp;"),
            '<' => escaped.push_str("&lt;"),
            '>' => escaped.push_str("&gt;"),
            c if c.is_control() => escaped.push('\u{fffd}'),
            c => escaped.push(c),
        }
    }
    escaped
}

#[cfg(test)]
mod tests {
    use super::*;

    #[test]
    fn large_memories_have_cells_of_several_pages() {
        assert_eq!(pages_per_cell(0), 1);
        assert_eq!(pages_per_cell(512), 1);
        assert_eq!(pages_per_cell(513), 2);
        assert_eq!(pages_per_cell(262144), 512);
    }

    #[test]
    fn text_is_escaped() {
        assert_eq!(escaped("a<b>&\u{1}"), "a&lt;b&gt;&amp;\u{fffd}");
    }
}
