//! Rows are kept as lines, which show the same wherever they are.

use tikeburo::{
    AttributeChange, Change, Changes, Client, Error, Intensity, Lines, RowBuffer, Screen, Surface,
    Viewer,
};

fn printed(width: usize, height: usize, text: &str) -> Surface {
    let mut surface = Surface::new(width, height).unwrap();
    surface.add_change(text).unwrap();
    surface
}

/// The lines of all of the surface's rows.
fn kept(surface: &Surface) -> Lines {
    let mut lines = Lines::new().unwrap();
    let (_, height) = surface.dimensions();
    for row in 0..height {
        lines.push_row(surface, row).unwrap();
    }
    lines
}

/// The lines' texts without the blanks at their ends.
fn texts(lines: &Lines) -> Vec<String> {
    let mut line = RowBuffer::new();
    let read = |index| {
        lines.read(index, &mut line).unwrap();
        line.text().trim_end().to_string()
    };
    (0..lines.len()).map(read).collect()
}

/// Each cell's text, columns, run, attributes and whether it has a link.
fn cells(buffer: &RowBuffer) -> Vec<String> {
    buffer.cells().map(|cell| format!("{cell:?}")).collect()
}

#[test]
fn a_line_has_the_cells_of_its_row() {
    let mut surface = printed(12, 2, "aか");
    let pen = AttributeChange::Intensity(Intensity::Bold);
    surface.add_change(Change::Attribute(pen)).unwrap();
    surface.add_change("bold\r\nnext").unwrap();
    let mut lines = kept(&surface);
    for compressed in [false, true] {
        if compressed {
            lines.compress(0..2).unwrap();
        }
        for row in 0..2 {
            let (mut line, mut read) = (RowBuffer::new(), RowBuffer::new());
            lines.read(row, &mut line).unwrap();
            surface.row(row).read(&mut read).unwrap();
            assert_eq!((line.text(), cells(&line)), (read.text(), cells(&read)));
        }
    }
    surface.add_change("\r\nlast").unwrap();
    assert_eq!(texts(&lines), ["aかbold", "next"]);
    assert_eq!(format!("{lines:?}"), "Lines { len: 2, .. }");
}

#[test]
fn rows_are_those_of_any_screen() {
    let mut surface = printed(8, 1, "one");
    let mut viewer = Viewer::new(&surface).unwrap();
    viewer.follow(&surface).unwrap();
    let mut client = Client::new().unwrap();
    let answer = surface.respond(&client.ask().unwrap()).unwrap();
    client.feed(&answer).unwrap();
    let mut lines = kept(&surface);
    lines.push_row(viewer.screen(), 0).unwrap();
    lines.push_row(client.screen(), 0).unwrap();
    assert_eq!(texts(&lines), ["one", "one", "one"]);
    assert_eq!(lines.push_row(&surface, 1), Err(Error::Range));
    assert_eq!(lines.len(), 3);
}

#[test]
fn what_scrolls_off_is_kept() {
    for keeps_changes in [true, false] {
        let mut surface = printed(8, 2, "one か");
        surface.keep_changes(keeps_changes);
        let mut viewer = Viewer::new(&surface).unwrap();
        viewer.follow(&surface).unwrap();
        let mut lines = Lines::new().unwrap();
        let mut changes = Changes::new();
        let number = surface.current_seqno();
        changes.text("\r\ntwo\r\nthree\r\nfour");
        assert_eq!(surface.add_scrolling(&changes, &mut lines), Ok(number));
        assert_eq!(texts(&lines), ["one か", "two"]);
        viewer.follow(&surface).unwrap();
        assert_eq!(viewer.screen().to_string(), surface.to_string());
        assert_eq!(surface.row(0).text().unwrap().trim_end(), "three");
        // A list with a fault keeps nothing.
        changes.push(&Change::ScrollRegionUp {
            first_row: 1,
            region_size: 2,
            scroll_count: 1,
        });
        let refused = surface.add_scrolling(&changes, &mut lines);
        assert_eq!(refused, Err(Error::ScrollRegion));
        assert_eq!(texts(&lines), ["one か", "two"]);
        assert_eq!(surface.row(0).text().unwrap().trim_end(), "three");
    }
}

#[test]
fn the_oldest_lines_go() {
    let mut lines = kept(&printed(4, 4, "a\r\nb\r\nc\r\nd"));
    assert_eq!(lines.remove_first(5), Err(Error::Range));
    lines.remove_first(1).unwrap();
    assert_eq!(texts(&lines), ["b", "c", "d"]);
    lines.remove(1..2).unwrap();
    assert_eq!(lines.remove(1..3), Err(Error::Range));
    assert_eq!(lines.compress(1..3), Err(Error::Range));
    assert_eq!(texts(&lines), ["b", "d"]);
    lines.remove_first(2).unwrap();
    assert!(lines.is_empty());
    let mut line = RowBuffer::new();
    assert_eq!(lines.read(0, &mut line), Err(Error::Range));
    assert_eq!(line.text(), "");
}

#[test]
fn lines_are_wrapped_in_their_order() {
    let mut lines = kept(&printed(8, 3, "aかb \r\n\r\nabcdef"));
    lines.compress(0..3).unwrap();
    lines.wrap(2).unwrap();
    assert_eq!(texts(&lines), ["a", "か", "b", "", "ab", "cd", "ef"]);
    let mut line = RowBuffer::new();
    for (index, wrapped) in [(0, true), (2, false), (5, true), (6, false)] {
        lines.read(index, &mut line).unwrap();
        let last = line.cells().next_back().unwrap();
        assert_eq!(last.attrs().wrapped(), wrapped, "{index}");
    }
}

#[test]
fn a_drawn_line_reaches_viewers() {
    let source = printed(8, 2, "aかbcdef\r\ntwo");
    let mut lines = kept(&source);
    lines.compress(0..1).unwrap();
    let mut surface = printed(6, 2, "xyz");
    let mut viewer = Viewer::new(&surface).unwrap();
    viewer.follow(&surface).unwrap();
    let number = surface.current_seqno();
    assert!(surface.draw_line(1, &lines, 0).unwrap() >= number);
    assert_eq!(surface.cursor_position(), (3, 0));
    surface.draw_line(0, &lines, 1).unwrap();
    let number = surface.current_seqno();
    assert_eq!(surface.draw_line(0, &lines, 2), Err(Error::Range));
    surface.draw_line(2, &lines, 0).unwrap();
    assert_eq!(surface.current_seqno(), number);
    viewer.follow(&surface).unwrap();
    let shown: &Screen = &surface;
    for screen in [shown, viewer.screen()] {
        let rows = screen.rows().map(|row| row.text().unwrap());
        let rows: Vec<_> = rows.map(|text| text.trim_end().to_string()).collect();
        assert_eq!(rows, ["two", "aかbcd"]);
    }
}
