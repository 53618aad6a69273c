//! What a screen lacks of another comes out as changes, and makes it show the same.

use tikeburo::{
    AttributeChange, Attributes, Change, Client, ColorAttribute, Error, Hyperlink, Options,
    Position, Surface, Viewer, Widths,
};

fn printed(width: usize, height: usize, text: &str) -> Surface {
    let mut surface = Surface::new(width, height).unwrap();
    surface.add_change(text).unwrap();
    surface
}

fn text_of(surface: &Surface) -> String {
    let rows = surface.rows().map(|row| row.text().unwrap());
    rows.map(|row| row.trim_end().to_string() + "\n").collect()
}

fn move_to(x: usize, y: usize) -> Change {
    Change::CursorPosition {
        x: Position::Absolute(x),
        y: Position::Absolute(y),
    }
}

#[test]
fn a_diff_prints_what_is_not_shown() {
    let shown = printed(8, 2, "abcd");
    let mut next = printed(8, 2, "axy");
    let red = ColorAttribute::PaletteIndex(1);
    next.add_change(Change::Attribute(AttributeChange::Foreground(red)))
        .unwrap();
    next.add_change("d\r\n e").unwrap();
    let pen = Attributes {
        foreground: red,
        ..Attributes::default()
    };
    let changes: Vec<Change> = shown.diff_screens(&next).unwrap().iter().collect();
    let wanted = [
        move_to(1, 0),
        Change::AllAttributes(Attributes::default()),
        Change::Text("xy".into()),
        Change::AllAttributes(pen),
        Change::Text("d".into()),
        move_to(0, 1),
        Change::Text(" e".into()),
    ];
    assert_eq!(changes, wanted);
    assert_eq!(shown.current_seqno(), 1);
}

#[test]
fn what_is_made_of_a_diff_shows_the_same() {
    let mut shown = printed(9, 3, "one かx\r\nsame");
    let mut next = printed(9, 3, "か other\r\nsame\r\ne\u{301}");
    next.add_change(Change::Attribute(AttributeChange::Hyperlink(Some(
        Hyperlink::new("uri:a"),
    ))))
    .unwrap();
    next.add_change("!").unwrap();
    let changes = shown.diff_screens(&next).unwrap();
    shown.add(&changes).unwrap();
    assert_eq!(text_of(&shown), "か other\nsame\ne\u{301}!\n");
    assert_eq!(shown.row(2).cell(1), next.row(2).cell(1));
    assert!(shown.diff_screens(&next).unwrap().is_empty());
    assert!(shown.diff_screens(&shown).unwrap().is_empty());
}

#[test]
fn viewers_and_clients_are_compared_too() {
    let mut surface = printed(6, 1, "hi");
    let mut viewer = Viewer::new(&surface).unwrap();
    assert_eq!(viewer.screen().diff_screens(&surface).unwrap().len(), 3);
    viewer.follow(&surface).unwrap();
    let mut client = Client::new().unwrap();
    let ask = client.ask().unwrap();
    client.feed(&surface.respond(&ask).unwrap()).unwrap();
    assert!(client
        .screen()
        .diff_screens(viewer.screen())
        .unwrap()
        .is_empty());
    surface.add_change("!").unwrap();
    let changes: Vec<Change> = viewer
        .screen()
        .diff_screens(&surface)
        .unwrap()
        .iter()
        .collect();
    assert_eq!(changes.last(), Some(&Change::Text("!".into())));
}

#[test]
fn regions_are_compared_where_they_are() {
    let mut one = printed(8, 2, "abcdefgh");
    let other = printed(8, 2, "\r\n12345678");
    let changes = one.diff_region(1, 0, 3, 1, &other, 4, 1).unwrap();
    one.add(&changes).unwrap();
    assert_eq!(text_of(&one), "a567efgh\n\n");
    let changes = one
        .diff_region(6, 0, usize::MAX, usize::MAX, &other, 7, 1)
        .unwrap();
    one.add(&changes).unwrap();
    assert_eq!(text_of(&one), "a567ef8h\n\n");
    assert!(one
        .diff_region(8, 0, 1, 1, &other, 0, 0)
        .unwrap()
        .is_empty());
    assert!(one
        .diff_region(0, 0, 1, 1, &other, 0, 2)
        .unwrap()
        .is_empty());
}

#[test]
fn a_region_is_compared_with_one_of_its_own_screen() {
    for widths in [Widths::Unicode, Widths::OneColumn] {
        let options = Options::new().widths(widths);
        let mut surface = Surface::with_options(6, 3, options).unwrap();
        surface.add_change("one\r\nかtwo\r\nend").unwrap();
        let changes = surface.diff_region(0, 0, 6, 1, &surface, 0, 1).unwrap();
        surface.add(&changes).unwrap();
        assert_eq!(text_of(&surface), "かtwo\nかtwo\nend\n");
        assert!(surface
            .diff_region(0, 1, 6, 1, &surface, 0, 0)
            .unwrap()
            .is_empty());
    }
}

/// A client that is fed a repaint of one row: a text with no link, one with a link whose params are
/// `id=7` and `x=`, with this value after it.
fn linked(value: &[u8]) -> Client {
    let mut bytes = vec![0x87, 2, 1, 4, 1, 0, 3, 0x83, 0x82, 2, 0x61, b'a'];
    bytes.extend([0x82, 0, 0x82, 9, 0x83, 0x61, b'u', 0xf4, 0x82]);
    bytes.extend([0x82, 0x62, b'i', b'd', 0x61, b'7', 0x82, 0x61, b'x']);
    bytes.extend([0x78, value.len() as u8]);
    bytes.extend(value);
    bytes.extend([0x82, 2, 0x61, b'b']);
    let mut client = Client::new().unwrap();
    client.feed(&bytes).unwrap();
    client
}

#[test]
fn params_of_links_are_read() {
    for count in [24, 200] {
        let value = "v".repeat(count);
        let client = linked(value.as_bytes());
        let params = [("id", "7"), ("x", &value)].map(|(key, value)| (key.into(), value.into()));
        let screen = client.screen();
        assert_eq!(screen.pen_link_params().unwrap(), params);
        let link = Some(Hyperlink::new_with_id("u", "7"));
        assert_eq!(screen.pen().unwrap().hyperlink, link);
        let cell = screen.row(0).cell(1).unwrap();
        assert_eq!(cell.attrs().hyperlink, link);
        assert_eq!(screen.row(0).link_params(1).unwrap(), params);
        assert_eq!(screen.row(0).link_params(0).unwrap(), []);
        assert_eq!(screen.row(0).link_params(4), Err(Error::Range));
        assert_eq!(screen.row(1).link_params(0), Err(Error::Range));
    }
    let surface = printed(4, 1, "a");
    assert_eq!(surface.pen_link_params().unwrap(), []);
}

#[test]
fn the_id_is_found_among_other_params() {
    for (params, id) in [
        (&[("id", "7")][..], "7"),
        (&[("a", "b"), ("id", "7")], "7"),
        (&[("a", "b"), ("long key", "c"), ("x", "7")], ""),
        (&[("a long key", ""), ("id", "か"), ("x", "7")], "か"),
        (&[("id", "")], ""),
        (&[("ie", "7")], ""),
        (&[], ""),
    ] {
        let mut bytes = vec![0x87, 2, 1, 4, 1, 0, 2, 0x82];
        bytes.extend([0x82, 0, 0x82, 9, 0x83, 0x61, b'u', 0xf4]);
        bytes.push(0x80 + params.len() as u8);
        for (key, value) in params {
            bytes.push(0x82);
            for text in [key, value] {
                bytes.push(0x60 + text.len() as u8);
                bytes.extend(text.bytes());
            }
        }
        bytes.extend([0x82, 2, 0x61, b'a']);
        let mut client = Client::new().unwrap();
        client.feed(&bytes).unwrap();
        let link = Some(Hyperlink::new_with_id("u", id));
        assert_eq!(client.pen().unwrap().hyperlink, link);
        let cell = client.row(0).cell(0).unwrap();
        assert_eq!(cell.attrs().hyperlink, link);
    }
}
