//! Texts, as surfaces cut and measure them.

use crate::error::Error;
use crate::ffi;
use crate::surface::Surface;
use crate::widths::Widths;

/// The columns of a text: the sum over its graphemes, each of which has 0 to 2. A cell has at least
/// 1, also where its grapheme has none, as a combining mark by itself; [`graphemes`] has the
/// columns of cells.
///
/// # Examples
///
/// ```
/// use tikeburo::{text_width, Widths};
///
/// assert_eq!(text_width("か x", Widths::Unicode), 4);
/// assert_eq!(text_width("か x", Widths::OneColumn), 3);
/// ```
#[must_use]
pub fn text_width(text: &str, widths: Widths) -> usize {
    let mut columns = 0;
    // Safety: the text is only read. The call doesn't fail: it is UTF-8.
    let _done = match widths.number_or_table() {
        Ok(widths) => unsafe {
            ffi::tk_text_width(text.as_ptr(), text.len(), widths, &mut columns)
        },
        Err(table) => table.text_width(text, &mut columns),
    };
    columns
}

/// The graphemes of a text and their columns, as a surface cuts and measures them: 1 or 2 each. A
/// control character, which no surface prints, has 0.
///
/// # Errors
///
/// [`Error::Memory`].
///
/// # Examples
///
/// Cuts a text to the columns that there are:
///
/// ```
/// use tikeburo::{graphemes, Error, Widths};
///
/// let mut room = 4;
/// let mut shown = String::new();
/// for (grapheme, columns) in graphemes("か漢字", Widths::Unicode)? {
///     if columns > room {
///         break;
///     }
///     room -= columns;
///     shown.push_str(grapheme);
/// }
/// assert_eq!(shown, "か漢");
/// # Ok::<(), Error>(())
/// ```
pub fn graphemes(text: &str, widths: Widths) -> Result<Vec<(&str, usize)>, Error> {
    let mut pieces = Vec::with_capacity(text.len());
    let mut rest = text;
    while !rest.is_empty() {
        let control = rest.find(char::is_control).unwrap_or(rest.len());
        let (printed, after) = rest.split_at(control);
        measure(printed, widths, &mut pieces)?;
        let mut characters = after.chars();
        let length = characters.next().map_or(0, char::len_utf8);
        if length > 0 {
            pieces.push((&after[..length], 0));
        }
        rest = characters.as_str();
    }
    Ok(pieces)
}

/// Appends the pieces of a text without control characters: a surface, which has room for it all in
/// one row, is asked for its cells.
fn measure<'a>(
    text: &'a str,
    widths: Widths,
    pieces: &mut Vec<(&'a str, usize)>,
) -> Result<(), Error> {
    if text.is_ascii() {
        pieces.extend((0..text.len()).map(|at| (&text[at..=at], 1)));
        return Ok(());
    }
    let columns = 2 * text.chars().count();
    let mut surface = Surface::with_source(columns, 1, widths, 1)?;
    surface.add_change(text)?;
    let mut rest = text;
    for cell in surface.row(0).cells() {
        let cell = cell?;
        let Some(after) = rest.strip_prefix(cell.str()) else {
            break; // the blanks after it
        };
        pieces.push((&rest[..cell.str().len()], cell.width()));
        rest = after;
    }
    Ok(())
}

#[cfg(test)]
mod tests {
    use super::*;

    fn unicode(text: &str) -> Vec<(&str, usize)> {
        graphemes(text, Widths::Unicode).unwrap()
    }

    #[test]
    fn a_grapheme_has_all_that_joins() {
        let text = "e\u{301}か👩‍🚀🇩🇪☂️ x ";
        let wanted = [
            ("e\u{301}", 1),
            ("か", 2),
            ("👩‍🚀", 2),
            ("🇩🇪", 2),
            ("☂️", 2),
            (" ", 1),
            ("x", 1),
            (" ", 1),
        ];
        assert_eq!(unicode(text), wanted);
    }

    #[test]
    fn the_columns_of_a_text_are_those_of_its_graphemes() {
        assert_eq!(text_width("", Widths::Unicode), 0);
        assert_eq!(text_width("e\u{301}か👩‍🚀🇩🇪☂️ x ", Widths::Unicode), 12);
        assert_eq!(text_width("e\u{301}か👩‍🚀🇩🇪☂️ x ", Widths::OneColumn), 8);
        assert_eq!(text_width("\u{301}", Widths::Unicode), 0);
    }

    #[test]
    fn control_characters_have_no_columns() {
        assert_eq!(unicode(""), []);
        assert_eq!(unicode("\r\n"), [("\r", 0), ("\n", 0)]);
        let wanted = [("a", 1), ("\u{85}", 0), ("か", 2), ("\u{7f}", 0), ("b", 1)];
        assert_eq!(unicode("a\u{85}か\u{7f}b"), wanted);
    }

    #[test]
    fn widths_are_those_that_are_chosen() {
        let narrow = graphemes("か\u{301}x", Widths::OneColumn).unwrap();
        assert_eq!(narrow, [("か\u{301}", 1), ("x", 1)]);
    }

    #[test]
    fn a_text_may_be_long() {
        let text = "aか".repeat(3000);
        let pieces = unicode(&text);
        assert_eq!(pieces.len(), 6000);
        assert_eq!(pieces[5998..], [("a", 1), ("か", 2)]);
    }
}
