//! What goes into a surface comes out of it again, and each error has its name.

use tikeburo::{
    AttributeChange, Attributes, Blink, Change, ColorAttribute, CursorShape, CursorVisibility,
    Error, Hyperlink, Intensity, LineAttribute, Options, Position, RgbColor, RowBuffer,
    SemanticType, Surface, Underline, VerticalAlign, Widths,
};

const ORANGE: RgbColor = RgbColor::new_8bpc(255, 128, 0);

/// The rows' texts without the blanks at their ends.
fn rows(surface: &Surface) -> Vec<String> {
    surface
        .rows()
        .map(|row| row.text().unwrap().trim_end().to_string())
        .collect()
}

fn printed(width: usize, height: usize, text: &str) -> Surface {
    let mut surface = Surface::new(width, height).unwrap();
    surface.add_change(text).unwrap();
    surface
}

#[test]
fn a_new_surface_is_blank() {
    let surface = Surface::new(4, 2).unwrap();
    assert_eq!(surface.dimensions(), (4, 2));
    assert_eq!(surface.cursor_position(), (0, 0));
    assert_eq!(surface.cursor_visibility(), CursorVisibility::Visible);
    assert_eq!(surface.current_seqno(), 0);
    assert_eq!(surface.title().unwrap(), "");
    assert_eq!(rows(&surface), ["", ""]);
    let cell = surface.row(1).cell(3).unwrap();
    assert_eq!((cell.str(), cell.width()), (" ", 1));
    assert_eq!(*cell.attrs(), Attributes::default());
}

#[test]
fn sizes_are_from_1_to_2_to_the_32_less_1() {
    for (width, height) in [(0, 1), (1, 0), (1 << 32, 1), (1, usize::MAX)] {
        assert_eq!(Surface::new(width, height).unwrap_err(), Error::Range);
    }
    let mut surface = printed(4, 2, "abcdef");
    assert_eq!(surface.resize(0, 2), Err(Error::Range));
    surface.resize(3, 3).unwrap();
    assert_eq!(surface.dimensions(), (3, 3));
    assert_eq!(rows(&surface), ["abc", "ef", ""]);
}

#[test]
fn widths_are_those_that_are_chosen() {
    let surface = printed(8, 1, "か");
    assert_eq!(surface.cursor_position(), (2, 0));
    let options = Options::new().widths(Widths::OneColumn);
    let mut narrow = Surface::with_options(8, 1, options).unwrap();
    narrow.add_change("か").unwrap();
    assert_eq!(narrow.cursor_position(), (1, 0));
}

#[test]
fn rows_and_cells_are_iterated() {
    let surface = printed(5, 3, "aかe\u{301}\r\nlow");
    let cells: Vec<_> = surface.row(0).cells().map(Result::unwrap).collect();
    let texts: Vec<_> = cells.iter().map(|cell| cell.str()).collect();
    assert_eq!(texts, ["a", "か", "e\u{301}", " "]);
    assert_eq!(cells.iter().map(|cell| cell.width()).sum::<usize>(), 5);
    assert_eq!(surface.rows().len(), 3);
    let numbers: Vec<_> = surface.rows().rev().map(|row| row.number()).collect();
    assert_eq!(numbers, [2, 1, 0]);
    assert_eq!(surface.row(3).text(), Err(Error::Range));
    assert_eq!(surface.row(3).cells().last(), Some(Err(Error::Range)));
    assert_eq!(surface.row(0).cell(5), Err(Error::Range));
    assert_eq!(surface.row(0).cell(2).unwrap().str(), " "); // after a wide one
}

#[test]
fn a_row_is_read_with_its_blanks_or_without_them() {
    let mut surface = printed(8, 2, "aか");
    surface
        .add_change(Change::ClearToEndOfLine(ColorAttribute::Default))
        .unwrap();
    let mut buffer = RowBuffer::new();
    surface.row(0).read(&mut buffer).unwrap();
    assert_eq!(buffer.text(), "aか");
    assert_eq!(surface.row(0).text().unwrap(), "aか");
    surface.row(0).read_shown(&mut buffer).unwrap();
    assert_eq!(buffer.text(), "aか     ");
    assert_eq!(surface.row(0).shown_text().unwrap(), "aか     ");
    assert_eq!(buffer.cells().map(|cell| cell.width()).sum::<usize>(), 8);
    for (read, cell) in buffer.cells().zip(surface.row(0).cells()) {
        let cell = cell.unwrap();
        assert_eq!((read.str(), read.attrs()), (cell.str(), cell.attrs()));
    }
    assert_eq!(surface.row(2).shown_text(), Err(Error::Range));
    assert_eq!(surface.row(2).read_shown(&mut buffer), Err(Error::Range));
    assert_eq!(buffer.cells().len(), 0);
}

#[test]
fn all_attributes_are_read_as_they_were_set() {
    let attributes = Attributes {
        intensity: Intensity::Half,
        underline: Underline::Dashed,
        blink: Blink::Rapid,
        semantic_type: SemanticType::Prompt,
        vertical_align: VerticalAlign::SubScript,
        italic: true,
        reverse: true,
        strikethrough: true,
        invisible: true,
        wrapped: true,
        overline: true,
        foreground: ColorAttribute::PaletteIndex(200),
        background: ColorAttribute::TrueColorWithDefaultFallback(ORANGE),
        underline_color: ColorAttribute::TrueColorWithPaletteFallback(ORANGE, 9),
        hyperlink: Some(Hyperlink::new_with_id(
            "http://a/".repeat(30),
            "か".repeat(70),
        )),
    };
    check_attributes(attributes);
}

/// Prints with these attributes, and reads them again.
fn check_attributes(attributes: Attributes) {
    let mut surface = Surface::new(1, 1).unwrap();
    let pen = Change::AllAttributes(attributes.clone());
    surface.add_changes(&[pen, "x".into()]).unwrap();
    assert_eq!(first_attributes(&surface), attributes);
}

fn first_attributes(surface: &Surface) -> Attributes {
    surface.row(0).cell(0).unwrap().attrs().clone()
}

#[test]
fn each_value_of_an_attribute_is_read_as_it_was_set() {
    for intensity in [Intensity::Normal, Intensity::Bold, Intensity::Half] {
        check_attributes(Attributes {
            intensity,
            ..Attributes::default()
        });
    }
    use Underline::{Curly, Dashed, Dotted, Double, Single};
    for underline in [Underline::None, Single, Double, Curly, Dotted, Dashed] {
        check_attributes(Attributes {
            underline,
            ..Attributes::default()
        });
    }
    for blink in [Blink::None, Blink::Slow, Blink::Rapid] {
        check_attributes(Attributes {
            blink,
            ..Attributes::default()
        });
    }
    use SemanticType::{Input, Output, Prompt};
    for semantic_type in [Output, Input, Prompt] {
        check_attributes(Attributes {
            semantic_type,
            ..Attributes::default()
        });
    }
    use VerticalAlign::{BaseLine, SubScript, SuperScript};
    for vertical_align in [BaseLine, SuperScript, SubScript] {
        check_attributes(Attributes {
            vertical_align,
            ..Attributes::default()
        });
    }
}

#[test]
fn each_flag_is_read_as_it_was_set() {
    let flags: [fn(&mut Attributes) -> &mut bool; 6] = [
        |attributes| &mut attributes.italic,
        |attributes| &mut attributes.reverse,
        |attributes| &mut attributes.strikethrough,
        |attributes| &mut attributes.invisible,
        |attributes| &mut attributes.wrapped,
        |attributes| &mut attributes.overline,
    ];
    for flag in flags {
        let mut attributes = Attributes::default();
        *flag(&mut attributes) = true;
        check_attributes(attributes);
    }
}

#[test]
fn one_attribute_is_set_alone() {
    let link = Hyperlink::new_with_id("uri:a", "7");
    let color = ColorAttribute::PaletteIndex(3);
    let wanted = Attributes {
        intensity: Intensity::Bold,
        underline: Underline::Double,
        italic: true,
        blink: Blink::Slow,
        reverse: true,
        strikethrough: true,
        invisible: true,
        foreground: color,
        background: ColorAttribute::TrueColorWithDefaultFallback(ORANGE),
        hyperlink: Some(link.clone()),
        ..Attributes::default()
    };
    let changes = [
        AttributeChange::Intensity(wanted.intensity),
        AttributeChange::Underline(wanted.underline),
        AttributeChange::Italic(true),
        AttributeChange::Blink(wanted.blink),
        AttributeChange::Reverse(true),
        AttributeChange::StrikeThrough(true),
        AttributeChange::Invisible(true),
        AttributeChange::Foreground(wanted.foreground),
        AttributeChange::Background(wanted.background),
        AttributeChange::Hyperlink(Some(link)),
    ];
    let mut surface = Surface::new(1, 1).unwrap();
    surface.add_changes(&changes.map(Change::from)).unwrap();
    surface.add_change("x").unwrap();
    assert_eq!(first_attributes(&surface), wanted);
}

#[test]
fn a_link_has_an_id_or_none() {
    for (uri, id) in [
        ("uri:a", ""),
        ("uri:a", "7"),
        ("uri:か", "か"),
        ("", "id"),
        ("", ""),
        ("uri", &"x".repeat(300)),
    ] {
        let link = Hyperlink::new_with_id(uri, id);
        assert_eq!((link.uri(), link.id().unwrap_or_default()), (uri, id));
        let mut surface = Surface::new(1, 1).unwrap();
        let change = AttributeChange::Hyperlink(Some(link.clone()));
        let changes = [change.into(), Change::Text("x".into())];
        surface.add_changes(&changes).unwrap();
        assert_eq!(surface.pen().unwrap().hyperlink, Some(link.clone()));
        assert_eq!(first_attributes(&surface).hyperlink, Some(link.clone()));

        // As changes that are read, it has its uri alone.
        let (_, changes) = surface.get_changes(1).unwrap();
        assert_eq!(changes.iter().next(), Some("x".into()));
        let (_, changes) = surface.get_changes(0).unwrap();
        let pens = changes.iter().filter_map(|change| match change {
            Change::AllAttributes(pen) => pen.hyperlink,
            _ => None,
        });
        assert!(pens.into_iter().all(|it| it == Hyperlink::new(uri)));
    }
    assert_eq!(Hyperlink::new_with_id("a", ""), Hyperlink::new("a"));
    assert_ne!(Hyperlink::new_with_id("a", "b"), Hyperlink::new("ab"));
    assert_eq!(
        format!("{:?}", Hyperlink::new_with_id("a", "b")),
        r#"Hyperlink { uri: "a", id: Some("b") }"#
    );
}

#[test]
fn one_attribute_leaves_the_others() {
    let mut surface = Surface::new(1, 1).unwrap();
    surface.add_change(AttributeChange::Reverse(true)).unwrap();
    surface
        .add_change(AttributeChange::Hyperlink(Some(Hyperlink::new("uri:a"))))
        .unwrap();
    surface
        .add_change(AttributeChange::Hyperlink(None))
        .unwrap();
    surface.add_change("x").unwrap();
    assert_eq!(
        first_attributes(&surface),
        Attributes {
            reverse: true,
            ..Attributes::default()
        }
    );
}

#[test]
fn the_cursor_moves_as_positions_say() {
    let mut surface = Surface::new(10, 4).unwrap();
    let mut moved = |x, y| {
        surface.add_change(Change::CursorPosition { x, y }).unwrap();
        surface.cursor_position()
    };
    use Position::{Absolute, EndRelative, Relative};
    assert_eq!(moved(Absolute(3), EndRelative(1)), (3, 3));
    assert_eq!(moved(Relative(-1), Relative(-300)), (2, 0));
    assert_eq!(moved(Relative(isize::MAX), Absolute(usize::MAX)), (9, 3));
    assert_eq!(moved(EndRelative(70000), Relative(isize::MIN)), (0, 0));
}

#[test]
fn clears_and_scrolls_do_what_they_say() {
    let blue = ColorAttribute::PaletteIndex(4);
    let mut surface = printed(3, 3, "abcdefghi");
    let home = Change::CursorPosition {
        x: Position::Absolute(1),
        y: Position::Absolute(0),
    };
    let changes = [home, Change::ClearToEndOfLine(blue)];
    surface.add_changes(&changes).unwrap();
    assert_eq!(rows(&surface), ["a", "def", "ghi"]);
    assert_eq!(surface.row(0).cell(2).unwrap().attrs().background, blue);
    let up = Change::ScrollRegionUp {
        first_row: 1,
        region_size: 2,
        scroll_count: 1,
    };
    surface.add_change(up).unwrap();
    assert_eq!(rows(&surface), ["a", "ghi", ""]);
    let down = Change::ScrollRegionDown {
        first_row: 0,
        region_size: 3,
        scroll_count: 1,
    };
    surface.add_change(down).unwrap();
    assert_eq!(rows(&surface), ["", "a", "ghi"]);
    let rest = Change::ClearToEndOfScreen(ColorAttribute::Default);
    surface.add_change(rest).unwrap();
    assert_eq!(rows(&surface), ["", "", ""]);
    surface.add_change(Change::ClearScreen(blue)).unwrap();
    assert_eq!(surface.cursor_position(), (0, 0));
    assert_eq!(surface.row(2).cell(2).unwrap().attrs().background, blue);
}

#[test]
fn states_beside_the_screen_are_kept() {
    let mut surface = Surface::new(4, 1).unwrap();
    let changes = [
        Change::Title("notes か".into()),
        Change::CursorVisibility(CursorVisibility::Hidden),
        Change::CursorShape(CursorShape::SteadyBar),
        Change::CursorColor(ColorAttribute::TrueColorWithDefaultFallback(ORANGE)),
        Change::LineAttribute(LineAttribute::DoubleWidthLine),
    ];
    let orange = ColorAttribute::TrueColorWithDefaultFallback(ORANGE);
    assert_eq!(surface.cursor_shape(), CursorShape::Default);
    assert_eq!(surface.cursor_color(), ColorAttribute::Default);
    assert_eq!(surface.add_changes(&changes), Ok(5));
    assert_eq!(surface.title().unwrap(), "notes か");
    assert_eq!(surface.cursor_visibility(), CursorVisibility::Hidden);
    assert_eq!(surface.cursor_shape(), CursorShape::SteadyBar);
    assert_eq!(surface.cursor_color(), orange);
    let line = surface.row(0).line_attribute();
    assert_eq!(line, Ok(LineAttribute::DoubleWidthLine));
    assert_eq!(surface.row(1).line_attribute(), Err(Error::Range));
}

#[test]
fn the_pen_is_read_as_it_was_set() {
    let mut surface = Surface::new(4, 1).unwrap();
    assert_eq!(surface.pen(), Ok(Attributes::default()));
    let pen = Attributes {
        underline: Underline::Curly,
        overline: true,
        background: ColorAttribute::PaletteIndex(4),
        hyperlink: Some(Hyperlink::new("uri:a")),
        ..Attributes::default()
    };
    let change = Change::AllAttributes(pen.clone());
    surface.add_change(change).unwrap();
    assert_eq!(surface.pen(), Ok(pen));
}

#[test]
fn changes_are_numbered() {
    let mut surface = Surface::new(4, 1).unwrap();
    assert_eq!(surface.add_change("a"), Ok(0));
    assert_eq!(surface.add_change("b"), Ok(1));
    assert_eq!(surface.add_changes(&["c".into(), "d".into()]), Ok(3));
    assert_eq!(surface.current_seqno(), 4);
    assert_eq!(surface.add_changes(&[]), Ok(3));
    let shape = Change::CursorShape(CursorShape::SteadyBar);
    let mixed = ["か".into(), shape.clone(), shape, "\u{1f600}".into()];
    assert_eq!(surface.add_changes(&mixed), Ok(7));
    assert_eq!(surface.current_seqno(), 8);
}

#[test]
fn a_surface_is_drawn_and_copied() {
    let mut screen = Surface::new(6, 2).unwrap();
    let widget = printed(2, 2, "abcd");
    screen.draw_from_screen(&widget, 1, 0).unwrap();
    assert_eq!(rows(&screen), [" ab", " cd"]);
    screen.draw_from(&widget, 1, 1, 9, 9, 4, 0).unwrap();
    assert_eq!(rows(&screen), [" ab d", " cd"]);
    assert_eq!(screen.cursor_position(), (0, 0));
    assert_eq!(
        screen.draw_from(&widget, 0, 2, 1, 1, 0, 0),
        Ok(screen.current_seqno() - 1)
    );
    screen.copy_region(1, 0, 2, 1, 3, 1).unwrap();
    assert_eq!(rows(&screen), [" ab d", " cdab"]);
    assert_eq!(screen.cursor_position(), (5, 1));
    screen.draw_region(1, 1, 1, 1, 4, 0).unwrap();
    assert_eq!(rows(&screen), [" ab c", " cdab"]);
    assert_eq!(screen.cursor_position(), (5, 1));
}

#[test]
fn surfaces_and_errors_are_displayed() {
    let surface = printed(3, 1, "abc");
    assert_eq!(surface.to_string(), "abc\n");
    assert!(format!("{surface:?}").starts_with("Surface { dimensions: (3, 1)"));
    assert_eq!(format!("{surface}"), "abc\n");
    let error: Box<dyn std::error::Error> = Box::new(Error::Range);
    assert_eq!(
        error.to_string(),
        "a row, a column, a size or a limit is outside of its range"
    );
}

#[test]
fn variants_have_the_numbers_of_their_order() {
    assert_eq!(Intensity::try_from(2), Ok(Intensity::Half));
    assert_eq!(Blink::try_from(1), Ok(Blink::Slow));
    assert_eq!(SemanticType::try_from(2), Ok(SemanticType::Prompt));
    assert_eq!(VerticalAlign::try_from(0), Ok(VerticalAlign::BaseLine));
    for number in 0..=255 {
        let underline = Underline::try_from(number).map(|it| it as u8);
        assert_eq!(underline.ok(), Some(number).filter(|number| *number < 6));
        let shape = CursorShape::try_from(number).map(|it| it as u8);
        assert_eq!(shape.ok(), Some(number).filter(|number| *number < 7));
        let attribute = LineAttribute::try_from(number).map(|it| it as u8);
        assert_eq!(attribute.ok(), Some(number).filter(|number| *number < 4));
    }
    assert_eq!(Underline::try_from(6), Err(Error::Range));
}

#[test]
fn what_is_short_stands_for_its_variant() {
    assert_eq!(CursorVisibility::from(true), CursorVisibility::Visible);
    assert_eq!(CursorVisibility::from(false), CursorVisibility::Hidden);
    let orange = ColorAttribute::TrueColorWithDefaultFallback(ORANGE);
    assert_eq!(ColorAttribute::from(ORANGE), orange);
}

#[test]
fn a_copy_shows_what_the_screen_showed() {
    let mut surface = printed(6, 2, "ab\r\nか");
    let copy = Surface::copy_of(&surface).unwrap();
    surface.add_change("cd").unwrap();
    assert_eq!(rows(&copy), ["ab", "か"]);
    assert_eq!(rows(&surface), ["ab", "かcd"]);
    assert_eq!(copy.dimensions(), (6, 2));
    assert_eq!(copy.cursor_position(), (0, 0));
    let mut narrow = Surface::new(2, 1).unwrap();
    narrow.draw_from_screen(&copy, 0, 0).unwrap();
    assert_eq!(rows(&narrow), ["ab"]);
}

#[test]
fn what_has_a_handle_is_send() {
    fn is_send<T: Send>() {}
    is_send::<tikeburo::Surface>();
    is_send::<tikeburo::Client>();
    is_send::<tikeburo::Viewer>();
    is_send::<tikeburo::Lines>();
    is_send::<tikeburo::render::Renderer>();
}
