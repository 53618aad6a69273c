//! Writes rows.

use super::line::Line;
use super::moves::by;
use super::options::Options;
use super::scrolls::Scroll;
use super::terminal::Terminal;
use std::sync::Arc;

/// How many blanks at the end of a row are erased and not printed. That takes up to a byte more,
/// but leaves the cursor where it is known to be.
const ERASED_AT_END: usize = 2;

/// Writes the rows that differ from those that are shown.
pub(super) fn write(
    terminal: &mut Terminal,
    options: &Options,
    shown: &[Arc<Line>],
    wanted: &[Arc<Line>],
) {
    let rows: Vec<_> = shown
        .iter()
        .zip(wanted)
        .map(|(shown, wanted)| wanted.differing(shown))
        .collect();
    let end = blank_end(options, wanted, &rows);
    for (number, (line, differing)) in wanted.iter().zip(&rows).enumerate().take(end) {
        if differing.is_empty() {
            continue;
        }
        if line.attribute != shown[number].attribute {
            if let Some(attribute) = line.attribute {
                terminal.set_line_attribute(number, attribute);
            }
        }
        let row = Row {
            number,
            shown: &shown[number],
            line,
            differing,
            options,
        };
        row.write(terminal);
    }
    let below = rows[end..].iter().position(|row| row.contains(&true));
    if let Some(row) = below {
        terminal.move_to(0, end + row);
        terminal.set_erasing_pen(wanted[end].pen(0));
        terminal.erase_to_end_of_screen();
    }
}

/// Scrolls rows. Where all go up from the last one, and the cursor is there, as where a program
/// prints lines, each row is written before it goes up.
pub(super) fn scroll(
    terminal: &mut Terminal,
    options: &Options,
    scroll: &Scroll,
    shown: &mut [Arc<Line>],
    wanted: &[Arc<Line>],
) {
    let (height, last) = (options.height, options.height - 1);
    let is_whole = scroll.up && (scroll.top, scroll.bottom) == (0, height);
    if !is_whole || terminal.row() != Some(last) {
        terminal.scroll(scroll, height);
        scroll.apply(shown);
        return;
    }
    let by_one = Scroll {
        count: 1,
        ..*scroll
    };
    for line in &wanted[last - scroll.count..last] {
        let row = Row {
            number: last,
            shown: &shown[last],
            line,
            differing: &line.differing(&shown[last]),
            options,
        };
        row.write(terminal);
        shown[last].clone_from(line);
        terminal.scroll(&by_one, height);
        by_one.apply(shown);
    }
}

/// Where the rows begin that are erased at once: those at the end that are all blanks of one pen,
/// where two at least differ. Else that is after the last row.
fn blank_end(options: &Options, wanted: &[Arc<Line>], rows: &[Vec<bool>]) -> usize {
    let height = wanted.len();
    let Some(last) = wanted.last().filter(|_| !options.line_attributes) else {
        return height;
    };
    if rows.iter().filter(|row| row.contains(&true)).count() < 2 {
        return height;
    }
    let pen = last.pen(0);
    let is_blank = |line: &&Arc<Line>| line.blanks(0) == line.len() && line.pen(0) == pen;
    let count = wanted.iter().rev().take_while(is_blank).count();
    let begin = height - count;
    let differing = rows[begin..].iter().filter(|row| row.contains(&true));
    if pen.is_erased(options) && differing.count() > 1 {
        begin
    } else {
        height
    }
}

/// A row, and its columns that differ from what is shown, as [`Line::differing`] has them.
struct Row<'a> {
    number: usize,
    shown: &'a Line,
    line: &'a Line,
    differing: &'a [bool],
    options: &'a Options,
}

impl Row<'_> {
    fn write(&self, terminal: &mut Terminal) {
        let mut column = 0;
        while let Some(begin) = self.next(column) {
            column = match self.erasable(begin) {
                Some(end) => self.erase(terminal, begin, end),
                None => self.print(terminal, begin),
            };
        }
    }

    /// The first column from this one on that differs.
    fn next(&self, column: usize) -> Option<usize> {
        let behind = self.differing.get(column..)?;
        let count = behind.iter().position(|differs| *differs)?;
        Some(column + count)
    }

    /// Up to where it takes fewer bytes to erase blanks from a column on than to print them.
    fn erasable(&self, begin: usize) -> Option<usize> {
        let (line, pen) = (self.line, self.line.pen(begin));
        if !line.is_blank(begin) || !pen.is_erased(self.options) {
            return None;
        }
        let blanks = begin..begin + line.blanks(begin);
        let last = blanks.clone().rev().find(|it| self.differing[*it])?;
        let count = last + 1 - begin;
        let is_short = if self.shown.is_second_half(last + 1) {
            false // some terminals would blank what was erased as they write over the other half
        } else if blanks.end == line.len() {
            count >= ERASED_AT_END
        } else {
            let behind = self.next(last + 1).map_or(0, |_| by(count, 'C').len());
            by(count, 'X').len() + behind < count
        };
        is_short.then_some(last + 1)
    }

    /// Erases blanks, and returns where they end.
    fn erase(&self, terminal: &mut Terminal, begin: usize, end: usize) -> usize {
        let pen = self.line.pen(begin);
        self.reach(terminal, begin);
        terminal.set_erasing_pen(pen);
        if begin + self.line.blanks(begin) == self.line.len() {
            terminal.erase_to_end_of_line();
        } else {
            terminal.erase_columns(end - begin);
        }
        end
    }

    /// Prints the text that begins at a column, and returns where it ends.
    fn print(&self, terminal: &mut Terminal, begin: usize) -> usize {
        let (line, pen) = (self.line, self.line.pen(begin));
        let columns = line.columns(begin).max(1);
        if line.is_apart(begin) {
            terminal.part();
        }
        self.reach(terminal, begin);
        if !terminal.has_pen(pen, line.is_blank(begin)) {
            terminal.set_pen(pen);
        }
        if line.is_certain(begin) {
            terminal.print(line.text(begin), columns, line.len());
        } else {
            self.print_uncertain(terminal, begin);
        }
        begin + columns
    }

    /// Prints a text that takes fewer or more columns on some terminals. All its columns are blank
    /// before, so that nothing stays of what was shown where it takes fewer.
    fn print_uncertain(&self, terminal: &mut Terminal, begin: usize) {
        let (line, columns) = (self.line, self.line.columns(begin));
        if columns > 1 {
            terminal.print(&" ".repeat(columns), columns, line.len());
            terminal.move_to(begin, self.number);
        }
        let might_wrap = begin + line.columns_by_characters(begin) > line.len();
        terminal.print_uncertain(line.text(begin), self.number, might_wrap);
    }

    /// Moves to a column: by what is shown before it, where that is shorter than a move.
    fn reach(&self, terminal: &mut Terminal, column: usize) {
        if let Some(from) = terminal.column(self.number) {
            if from < column && self.is_passable(terminal, from, column) {
                let texts = self.line.texts(from, column);
                terminal.print(texts, column - from, self.line.len());
                return;
            }
        }
        terminal.move_to(column, self.number);
    }

    /// Whether the texts from one column to another may be printed instead of a move, and take
    /// fewer bytes.
    fn is_passable(&self, terminal: &Terminal, from: usize, to: usize) -> bool {
        let line = self.line;
        let is_plain = |column: usize| {
            line.is_certain(column)
                && !line.is_apart(column)
                && terminal.has_pen(line.pen(column), line.is_blank(column))
        };
        let mut texts = (from..to).filter(|column| line.columns(*column) > 0);
        line.columns(from) > 0
            && line.texts(from, to).len() < terminal.move_cost(to, self.number)
            && texts.all(is_plain)
            && !line.is_apart(to)
    }
}

#[cfg(test)]
mod tests {
    use super::*;
    use crate::render::pen::Pen;

    fn written(shown: &[&str], wanted: &[&str]) -> String {
        let [shown, wanted] = [shown, wanted]
            .map(|rows| -> Vec<_> { rows.iter().map(|row| Arc::new(Line::of(row))).collect() });
        let options = Options::new(wanted[0].len(), wanted.len());
        let mut terminal = Terminal::new(&options);
        terminal.set_pen(&Pen::default());
        terminal.move_to(0, 0);
        terminal.bytes.clear();
        write(&mut terminal, &options, &shown, &wanted);
        String::from_utf8(terminal.bytes).unwrap()
    }

    #[test]
    fn what_differs_is_written() {
        for (shown, wanted, bytes) in [
            ("abcdefgh", "abcdefgh", ""),
            ("abcdefgh", "1bcdefgh", "1"),
            ("abcdefgh", "abcdefg1", "\x1b[7C1"),
            ("abcdefgh", "1b2defgh", "1b2"),
            ("abcdefgh", "1bcd2fgh", "1bcd2"),
            ("abcdefgh", "1bcde2gh", "1\x1b[4C2"),
            ("abcdefgh", "abcd    ", "\x1b[4C\x1b[K"),
            ("abcdefgh", "abcdef  ", "\x1b[6C\x1b[K"),
            ("abcdefgh", "abcdefg ", "\x1b[7C "),
            ("abcdefgh", "a      h", "a\x1b[6X"),
            ("abcdefgh", "        ", "\x1b[K"),
            ("        ", "       a", "\x1b[7Ca"),
        ] {
            assert_eq!(written(&[shown], &[wanted]), bytes, "{wanted}");
        }
        let long = "abcdefghijklmnopqrst";
        let erased = "a                  1";
        assert_eq!(written(&[long], &[erased]), "a\x1b[18X\x1b[18C1");
    }

    #[test]
    fn rows_are_reached_by_short_moves() {
        let shown = ["aa", "bb", "cc", "dd"];
        assert_eq!(written(&shown, &["aa", "1b", "2c", "dd"]), "\n1\r\n2");
        assert_eq!(written(&shown, &["a1", "2b", "cc", "dd"]), "a1\r\n2");
        assert_eq!(written(&shown, &["aa", "  ", "  ", "  "]), "\n\x1b[J");
        assert_eq!(written(&shown, &["aa", "bb", "cc", "  "]), "\n\n\n\x1b[K");
    }
}
