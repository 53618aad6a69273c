//! The lines of the tables in README.md, which compile as they stand there.

use std::error::Error;
use tikeburo::*;

type Outcome = std::result::Result<(), Box<dyn Error>>;

#[test]
fn surfaces() -> Outcome {
    let (width, height, x, y, to_x, to_y) = (8, 2, 0, 0, 4, 1);
    let other = Surface::new(2, 1)?;
    let mut surface = Surface::new(80, 24)?;
    let mut viewer = Viewer::new(&surface)?;
    let mut client = Client::new()?;
    let mut list = Changes::new();
    list.text("か");
    let changes = [Change::from("text"), Change::Title("title".into())];
    let number = surface.add_change("text")?;
    surface.add_changes(&changes)?;
    surface.add(&list)?;
    surface.draw_from_screen(&other, x, y)?;
    surface.copy_region(x, y, width, height, to_x, to_y)?;
    surface.resize(width, height)?;
    assert_eq!(surface.dimensions(), (width, height));
    let (column, row) = surface.cursor_position();
    assert!(column <= width && row < height);
    assert_eq!(surface.cursor_visibility(), CursorVisibility::Visible);
    assert!(surface.has_changes(number) && surface.current_seqno() > number);
    assert_eq!(surface.title()?, "title");
    assert!(surface.screen_chars_to_string()?.ends_with('\n'));
    assert_eq!(surface.rows().len(), height);
    assert_eq!(surface.row(y).cells().count(), surface.dimensions().0);
    let (current, lacking) = surface.get_changes(number)?;
    assert_eq!(current, surface.current_seqno());
    assert!(lacking.iter().next().is_some());
    assert_eq!(surface.cursor_shape(), CursorShape::Default);
    let (other_x, other_y) = (0, 0);
    // What was drawn of the other one is still there.
    assert!(surface.diff_screens(&other)?.is_empty());
    assert!(surface
        .diff_region(x, y, width, height, &other, other_x, other_y)?
        .is_empty());
    viewer.follow(&surface)?;
    let ask = client.ask()?;
    let answer = surface.respond(&ask)?;
    client.feed(&answer)?;
    assert_eq!(client.screen().to_string(), viewer.screen().to_string());
    Ok(())
}

#[test]
fn changes() -> Outcome {
    let (text, title) = ("text".to_string(), "title".to_string());
    let (first_row, region_size, scroll_count) = (0, 2, 1);
    let (color, attributes) = (ColorAttribute::PaletteIndex(4), Attributes::default());
    #[rustfmt::skip]
    let changes = vec![
        Change::Text(text), Change::from("text"), Change::Title(title),
        Change::Attribute(AttributeChange::Italic(true)), Change::AllAttributes(attributes),
        Change::ClearScreen(color), Change::ClearToEndOfLine(color),
        Change::ClearToEndOfScreen(color),
        Change::CursorPosition { x: Position::Absolute(1), y: Position::Relative(-1) },
        Change::CursorPosition { x: Position::EndRelative(1), y: Position::Absolute(0) },
        Change::CursorColor(color), Change::CursorShape(CursorShape::SteadyBar),
        Change::CursorVisibility(CursorVisibility::Hidden),
        Change::ScrollRegionUp { first_row, region_size, scroll_count },
        Change::ScrollRegionDown { first_row, region_size, scroll_count },
        Change::LineAttribute(LineAttribute::DoubleWidthLine),
        Change::from(LineAttribute::SingleWidthLine),
    ];
    let change = changes[0].clone();
    assert!(change.is_text());
    if let Change::Text(text) = &change {
        assert_eq!(text, "text");
    }
    assert!(CursorShape::BlinkingBar.is_blinking() && !CursorShape::Default.is_blinking());
    let mut surface = Surface::new(8, 2)?;
    surface.add_changes(&changes)?;
    assert_eq!(surface.current_seqno(), SEQ_ZERO + changes.len());
    Ok(())
}

#[test]
fn attributes() -> Outcome {
    let color = AnsiColor::Teal;
    let uri = "uri:a";
    let mut attributes = CellAttributes::default();
    attributes.set_intensity(Intensity::Bold);
    attributes.intensity = Intensity::Bold;
    #[rustfmt::skip]
    attributes.set_underline(Underline::Curly).set_blink(Blink::Slow)
        .set_italic(true).set_reverse(true).set_strikethrough(true).set_invisible(true)
        .set_wrapped(true).set_overline(true)
        .set_semantic_type(SemanticType::Prompt).set_vertical_align(VerticalAlign::SubScript)
        .set_foreground(AnsiColor::Navy).set_background(color).set_underline_color(color);
    attributes.set_hyperlink(Some(Hyperlink::new(uri)));
    let link = Hyperlink::new(uri);
    assert_eq!(link.uri(), uri);
    let id = "7";
    let link = Hyperlink::new_with_id(uri, id);
    assert_eq!((link.uri(), link.id()), (uri, Some(id)));
    let change = AttributeChange::Hyperlink(None);
    attributes.apply_change(&change);
    let others = attributes.clone_sgr_only();
    assert!(!attributes.attribute_bits_equal(&others));
    let params: [&[u16]; 1] = [&[22]];
    attributes.apply_sgr(params);
    assert_eq!(attributes.intensity(), Intensity::Normal);
    assert!(attributes.to_sgr().starts_with("0;"));
    let navy: ColorAttribute = AnsiColor::Navy.into();
    assert_eq!(navy, ColorAttribute::PaletteIndex(4));
    let orange = ColorAttribute::TrueColorWithDefaultFallback(RgbColor::new_8bpc(255, 128, 0));
    attributes.clear();
    assert_eq!(attributes, CellAttributes::blank());
    assert_ne!(orange, attributes.foreground());
    Ok(())
}

#[test]
fn rows() -> Outcome {
    let (width, x, y, column) = (4, 1, 0, 2);
    let attributes = CellAttributes::default();
    let mut surface = Surface::new(8, 2)?;
    let mut list = Changes::new();
    surface.add(list.move_to(x, y).pen(&attributes).text("text"))?;
    let number = surface.current_seqno();
    surface.copy_region(x, y, width, 1, x + 1, y)?;
    assert!(surface.changed_rows(number)?[y]);
    let copy = Surface::copy_of(&surface)?;
    let row = copy.row(y);
    assert_eq!(row.text()?.trim_end(), " ttext");
    let cell = row.cell(column)?;
    assert_eq!((cell.str(), cell.width()), ("t", 1));
    assert_eq!(*cell.attrs(), attributes);
    let last = row.cells().last();
    assert!(!last.expect("a row has a cell")?.attrs().wrapped());
    assert_eq!(graphemes("text", Widths::Unicode)?.len(), 4);
    assert_eq!(text_width("text", Widths::Unicode), 4);
    assert_eq!(row.line_attribute()?, LineAttribute::SingleWidthLine);
    assert!(row.link_params(column)?.is_empty());
    let index = 0;
    let mut lines = Lines::new()?;
    lines.push_row(&surface, y)?;
    let mut changes = Changes::new();
    changes.text("row\r\n");
    surface.add_scrolling(&changes, &mut lines)?;
    lines.wrap(width)?;
    lines.compress(0..lines.len())?;
    surface.draw_line(y, &lines, index)?;
    Ok(())
}

/// What is seen of a sequence: the cursor's column and row, and the height.
fn seen(sequence: &ChangeSequence) -> (usize, isize, usize) {
    let (x, y) = sequence.current_cursor_position();
    (x, y, sequence.render_height())
}

#[test]
fn sequences() -> Outcome {
    let (rows, columns, column, row) = (2, 4, 3, 1);
    let change = Change::from("ab");
    let changes = vec!["か".into(), "c\r\nd".into()];
    let mut sequence = ChangeSequence::new(rows, columns)?;
    sequence.add(change)?;
    sequence.add_changes(changes)?;
    assert_eq!(seen(&sequence), (1, 2, 2));
    sequence.move_to((column, row))?;
    assert_eq!(seen(&sequence), (3, 1, 2));
    assert_eq!(sequence.consume().len(), 4);
    Ok(())
}

#[test]
fn sequences_move_as_surfaces_do() -> Outcome {
    use Position::{Absolute, EndRelative, Relative};
    let place = |x, y| Change::CursorPosition { x, y };
    let clear = Change::ClearScreen(ColorAttribute::Default);
    for (changes, wanted) in [
        (vec!["abcd\n".into()], (4, 1, 1)),
        (vec!["abcか".into()], (4, 0, 0)),
        (vec!["\u{200b}\t".into()], (2, 0, 0)),
        (vec!["abcde".into(), clear], (0, 0, 1)),
        (vec![place(Relative(-1), Relative(-3))], (3, -1, 1)),
        (vec![place(EndRelative(9), EndRelative(9))], (3, -1, 1)),
        (vec![place(Absolute(5), Absolute(3))], (1, 1, 1)),
    ] {
        let mut sequence = ChangeSequence::new(2, 4)?;
        sequence.add_changes(changes)?;
        assert_eq!(seen(&sequence), wanted);
    }
    let mut narrow = ChangeSequence::with_widths(2, 4, Widths::OneColumn)?;
    narrow.add("かか")?;
    assert_eq!(seen(&narrow), (2, 0, 0));
    let refused = narrow.move_to((usize::MAX, 0));
    assert_eq!(refused, Err(tikeburo::Error::Range));
    assert_eq!(narrow.consume().len(), 1);
    for (rows, columns) in [(0, 1), (1, 0), (1 << 32, 1), (1, usize::MAX)] {
        let refused = ChangeSequence::new(rows, columns);
        assert_eq!(refused.err(), Some(tikeburo::Error::Range));
    }
    Ok(())
}

/// The programs of a cell of a table.
fn programs(cell: &str) -> impl Iterator<Item = String> + '_ {
    let programs = cell.split('`').skip(1).step_by(2);
    programs.map(|program| program.split_whitespace().collect())
}

#[test]
fn each_line_of_the_tables_is_here() {
    let here: String = include_str!("page.rs").split_whitespace().collect();
    let mut count = 0;
    for line in include_str!("../README.md").lines() {
        let Some((before, after)) = line.trim_matches('|').split_once('|') else {
            continue;
        };
        let side = if after.starts_with("the same") {
            before
        } else {
            after
        };
        for program in programs(side).filter(|_| !after.starts_with("none")) {
            assert!(here.contains(&program), "{program}");
            count += 1;
        }
    }
    assert!(count > 80, "{count}");
}
