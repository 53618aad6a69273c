//! What a terminal shows of texts and sequences, wherever their bytes are cut. What is wanted is
//! written by hand from what ECMA-48, terminfo and xterm say of each sequence.

mod support;

use support::{attributes, check, fed_however, rows, Case};
use tikeburo::{Attributes, ColorAttribute, Intensity};

const SIZE: (usize, usize) = (6, 3);

#[test]
fn texts_and_control_characters() {
    check(
        SIZE,
        &[
            ("abcdefgh", &["abcdef", "gh", ""], (2, 1)),
            ("abcdef\r\nx", &["abcdef", "x", ""], (1, 1)),
            ("abcdef\nx", &["abcdef", "", "x"], (1, 2)),
            ("1\r\n2\r\n3\r\n4", &["2", "3", "4"], (1, 2)),
            ("1\x0b2\x0c3", &["1", " 2", "  3"], (3, 2)),
            ("a\tb", &["a    b", "", ""], (6, 0)),
            ("abc\x08x", &["abx", "", ""], (3, 0)),
            ("\x08x", &["x", "", ""], (1, 0)),
            ("abcdef\x08x", &["abcdxf", "", ""], (5, 0)),
            ("a\x00b\x07c\x7fd", &["abcd", "", ""], (4, 0)),
            ("か漢字x", &["か漢字", "x", ""], (1, 1)),
            ("abcdeか", &["abcde", "か", ""], (2, 1)),
            (
                "0123456789abcdefghijklmn",
                &["6789ab", "cdefgh", "ijklmn"],
                (6, 2),
            ),
            (
                "0123456789abcdefghijklmかx",
                &["cdefgh", "ijklm", "かx"],
                (3, 2),
            ),
        ],
    );
}

#[test]
fn what_is_no_character_is_replaced() {
    let cases: [(&[u8], &str); 6] = [
        (b"a\xffb\xc3(", "a\u{fffd}b\u{fffd}("),
        (b"\xe3\x81", ""),
        (b"\xe3\x81\x1b[Cx", "\u{fffd} x"),
        (b"\xf0\x9f\x98x", "\u{fffd}x"),
        (b"\xc0\xafx", "\u{fffd}\u{fffd}x"),
        (b"\x1b[3\xe3\x81\x8bx", "かx"),
    ];
    for (bytes, wanted) in cases {
        assert_eq!(rows(&fed_however(SIZE, bytes))[0], wanted, "{bytes:?}");
    }
    // Controls beyond ASCII are never printed, and counted.
    let terminal = fed_however(SIZE, "a\u{85}b\u{9b}1mc");
    assert_eq!(rows(&terminal)[0], "ab1mc");
    assert_eq!(terminal.unknown_count(), 2);
}

#[test]
fn a_wrap_waits_in_the_last_column() {
    check(
        SIZE,
        &[
            ("abcdef", &["abcdef", "", ""], (6, 0)),
            ("abcdef\x1b[Kg", &["abcde", "g", ""], (1, 1)),
            ("abcdef\x1b[Xg", &["abcde", "g", ""], (1, 1)),
            ("abcdef\x1b[1Kg", &["", "g", ""], (1, 1)),
            ("abcdef\x1b[2Jg", &["", "g", ""], (1, 1)),
            ("abcdef\x1b[mg", &["abcdef", "g", ""], (1, 1)),
            ("abcdef\x1b7\x1b[2;2H\x1b8g", &["abcdef", "g", ""], (1, 1)),
            ("abcdef\x1b[Dg", &["abcdgf", "", ""], (5, 0)),
            ("abcdef\x1b[Cg", &["abcdeg", "", ""], (6, 0)),
            ("abcdef\rg", &["gbcdef", "", ""], (1, 0)),
            ("abcdef\x1b[1;6Hg", &["abcdeg", "", ""], (6, 0)),
            ("abcdef\x1b[?7lg", &["abcdeg", "", ""], (6, 0)),
            ("abcdef\tg", &["abcdef", "g", ""], (1, 1)),
            ("abcdef\x1b[2Ig", &["abcdef", "g", ""], (1, 1)),
            ("abcdef\x1b[@g", &["abcde", "g", ""], (1, 1)),
            ("abcdef\x1b[Pg", &["abcde", "g", ""], (1, 1)),
            ("abcdef\x0b\x0cg", &["", "", "g"], (1, 2)),
            ("\r\nabcdef\x1bMg", &["", "gbcdef", ""], (1, 1)),
            ("abcdef\x1bDg", &["abcdef", "", "g"], (1, 2)),
            ("abcdef\x1b[Lg", &["g", "abcdef", ""], (1, 0)),
            ("abcdef\x1b[Mg", &["g", "", ""], (1, 0)),
            ("abcdef\x1b[Sg", &["", "g", ""], (1, 1)),
            ("1\r\n2\r\nabcdef\ng", &["abcdef", "", "g"], (1, 2)),
            ("\x1b[3Habcdef\x1b[2Ag", &["     g", "", "abcdef"], (6, 0)),
        ],
    );
}

#[test]
fn texts_stay_in_their_row_without_a_wrap() {
    check(
        SIZE,
        &[
            ("\x1b[?7labcdefgh", &["abcdeh", "", ""], (6, 0)),
            ("\x1b[?7labcdeか", &["abcdか", "", ""], (6, 0)),
            ("\x1b[?7labcdeかx", &["abcd x", "", ""], (6, 0)),
            ("\x1b[?7labcdefg\x1b[?7h\rhij", &["hijdeg", "", ""], (3, 0)),
        ],
    );
}

#[test]
fn moves() {
    check(
        SIZE,
        &[
            ("\x1b[2;3Hx", &["", "  x", ""], (3, 1)),
            ("\x1b[9;9Hx", &["", "", "     x"], (6, 2)),
            ("\x1b[;3fx\x1b[3dy\x1b[Gz", &["  x", "", "z  y"], (1, 2)),
            ("abc\x1b[2Dx\x1b[2Cy", &["axc y", "", ""], (5, 0)),
            ("\x1b[2Ba\x1b[1Ab\x1b[5Ac", &["  c", " b", "a"], (3, 0)),
            ("abc\x1b[Ex\x1b[2Ey", &["abc", "x", "y"], (1, 2)),
            ("abc\x1b[3d\x1b[2Fx", &["xbc", "", ""], (1, 0)),
            ("a\x1b[2ax\x1b[2ey", &["a  x", "", "    y"], (5, 2)),
            ("\x1b[3`x\x1b[4G", &["  x", "", ""], (3, 0)),
            ("a\x1b7\x1b[3;3Hb\x1b8c", &["ac", "", "  b"], (2, 0)),
            ("a\x1b[s\x1b[3;3Hb\x1b[uc", &["ac", "", "  b"], (2, 0)),
            ("abc\x1b8x", &["xbc", "", ""], (1, 0)),
            ("a\x1bEb\x1bDc", &["a", "b", " c"], (2, 2)),
            ("1\r\n2\r\n3\x1b[H\x1bMx", &["x", "1", "2"], (1, 0)),
            ("1\r\n2\x1bMx", &["1x", "2", ""], (2, 0)),
            (
                "\x1b[65535;65535Hx\x1b[65535A\x1b[65535Dy",
                &["y", "", "     x"],
                (1, 0),
            ),
        ],
    );
}

#[test]
fn clears() {
    check(
        SIZE,
        &[
            ("abc\x1b[1;2H\x1b[K", &["a", "", ""], (1, 0)),
            ("abc\x1b[2D\x1b[1K", &["  c", "", ""], (1, 0)),
            ("abc\x1b[2K", &["", "", ""], (3, 0)),
            ("1\r\n23\r\n4\x1b[2;2H\x1b[J", &["1", "2", ""], (1, 1)),
            ("1\r\n23\r\n4\x1b[2;1H\x1b[1J", &["", " 3", "4"], (0, 1)),
            ("1\r\n2\x1b[1;6H\x1b[1J", &["", "2", ""], (5, 0)),
            ("ab\x1b[2Jc", &["  c", "", ""], (3, 0)),
            ("ab\x1b[H\x1b[2Jc", &["c", "", ""], (1, 0)),
            ("ab\x1b[3Jc", &["abc", "", ""], (3, 0)),
            ("abc\x1b[?1K\x1b[?J", &["", "", ""], (3, 0)),
            ("abcdef\x1b[1;2H\x1b[2X", &["a  def", "", ""], (1, 0)),
            ("abcdef\x1b[1;3H\x1b[65535X", &["ab", "", ""], (2, 0)),
            ("か漢字\x1b[1;2H\x1b[X", &["  漢字", "", ""], (1, 0)),
        ],
    );
}

#[test]
fn rows_are_written_again() {
    check(
        SIZE,
        &[
            (
                "\x1b[Hab\x1b[K\x1b[Hcd\x1b[K\x1b[He\x1b[K",
                &["e", "", ""],
                (1, 0),
            ),
            (
                "\x1b[2Habc\x1b[K\x1b[Hx\x1b[K\x1b[2Hde\x1b[K",
                &["x", "de", ""],
                (2, 1),
            ),
            ("\x1b[2Habc\x1b[K\x1b[2;2Hd\x1b[K", &["", "ad", ""], (2, 1)),
            ("\x1b[2;2Habc\x1b[K\x1b[2Hd\x1b[K", &["", "d", ""], (1, 1)),
            // The first row is moved in between, and the last one isn't.
            (
                "\x1b[Hab\x1b[K\x1b[3Hcd\x1b[K\x1b[1;2r\x1b[T\x1b[He\x1b[K\x1b[3Hf\x1b[K",
                &["e", "ab", "f"],
                (1, 2),
            ),
            // A text goes on in the next row.
            (
                "\x1b[2;4Habcd\x1b[K\x1b[2;4He\x1b[K",
                &["", "   e", "d"],
                (4, 1),
            ),
            // A text that goes on below depends on the row above.
            (
                "\x1b[1;6H\x1b[J\x1b[H\x1b[K\neck\x1b[H\x1b[K",
                &["", "eck", ""],
                (0, 0),
            ),
            // A half of a wide cell is written over.
            (
                "かxy\x1b[H\x1b[2Gab\x1b[K\x1b[2Gc\x1b[K",
                &[" c", "", ""],
                (2, 0),
            ),
        ],
    );
    let bytes = "\x1b[m\x1b[H\x1b[31mab\x1b[m\x1b[K\x1b[2H\x1b[32mc\x1b[K\x1b[Hd\x1b[K\x1b[2He";
    let terminal = fed_however(SIZE, bytes);
    let green = Attributes {
        foreground: ColorAttribute::PaletteIndex(2),
        ..Attributes::default()
    };
    let pens = [(0, 0), (1, 0), (0, 1)].map(|(x, y)| attributes(&terminal, x, y));
    assert_eq!(
        pens,
        [&green, &Attributes::default(), &green].map(Clone::clone)
    );
    assert_eq!(rows(&terminal), ["d", "e", ""]);
}

#[test]
fn cells_and_rows_are_inserted_and_deleted() {
    check(
        SIZE,
        &[
            ("abc\x1b[1;2H\x1b[2@", &["a  bc", "", ""], (1, 0)),
            ("abcdef\x1b[1;2H\x1b[2@", &["a  bcd", "", ""], (1, 0)),
            ("abcdef\x1b[1;3H\x1b[65535@", &["ab", "", ""], (2, 0)),
            ("abcdef\x1b[1;2H\x1b[2P", &["adef", "", ""], (1, 0)),
            ("abcdef\x1b[1;3H\x1b[65535P", &["ab", "", ""], (2, 0)),
            ("1\r\n2\r\n3\x1b[H\x1b[L", &["", "1", "2"], (0, 0)),
            ("1\r\n2\r\n3\x1b[H\x1b[M", &["2", "3", ""], (0, 0)),
            ("1\r\n2\r\n3\x1b[H\x1b[65535M", &["", "", ""], (0, 0)),
            ("ab\x1b[Lc", &["c", "ab", ""], (1, 0)),
            ("1\r\n2\r\n3\x1b[S", &["2", "3", ""], (1, 2)),
            ("1\r\n2\r\n3\x1b[T", &["", "1", "2"], (1, 2)),
            ("1\r\n2\r\n3\x1b[65535T", &["", "", ""], (1, 2)),
            // At one place, in any order.
            (
                "abcdef\x1b[1;2H\x1b[@\x1b[@\x1b[P",
                &["a bcd", "", ""],
                (1, 0),
            ),
            (
                "abcdef\x1b[1;2H\x1b[2P\x1b[@\x1b[@",
                &["a  def", "", ""],
                (1, 0),
            ),
            ("abcdef\x1b[1;2H\x1b[9@\x1b[9P", &["a", "", ""], (1, 0)),
            (
                "abcdef\x1b[1;2H\x1b[@\x1b[3G\x1b[P",
                &["a cde", "", ""],
                (2, 0),
            ),
            ("かxyz\x1b[1;2H\x1b[@\x1b[P", &["  xyz", "", ""], (1, 0)),
            ("abか字\x1b[1;2H\x1b[@\x1b[P", &["abか", "", ""], (1, 0)),
            (
                "abcdef\x1b[1;2H\x1b[@\x1b[2;1Hx",
                &["a bcde", "x", ""],
                (1, 1),
            ),
            ("abcdef\x1b[1;2H\x1b[@\x1b[Jx", &["ax", "", ""], (2, 0)),
            ("abcdef\x1b[1;2H\x1b[@\x1b[2Jx", &[" x", "", ""], (2, 0)),
            ("abcdef\x1b[1;2H\x1b[@\x1b[3S", &["", "", ""], (1, 0)),
            // Insert mode.
            ("abc\x1b[H\x1b[4hxy\x1b[4lz", &["xyzbc", "", ""], (3, 0)),
            ("abcdef\x1b[H\x1b[4hx", &["xabcde", "", ""], (1, 0)),
            ("\x1b[4habcdefg", &["abcdef", "g", ""], (1, 1)),
            ("abcd\x1b[H\x1b[4hか", &["かabcd", "", ""], (2, 0)),
        ],
    );
}

#[test]
fn rows_scroll_between_margins() {
    check(
        SIZE,
        &[
            ("1\r\n2\r\n3\x1b[1;2r\x1b[2H\nx", &["2", "x", "3"], (1, 1)),
            (
                "1\r\n2\r\n3\x1b[2;3r\x1b[2H\x1bMx",
                &["1", "x", "2"],
                (1, 1),
            ),
            (
                "1\r\n2\r\n3\x1b[1;2r\x1b[2Habcdefg",
                &["abcdef", "g", "3"],
                (1, 1),
            ),
            ("1\x1b[2;3r\x1b[3H\x1b[9Ax", &["1", "x", ""], (1, 1)),
            ("\x1b[1;2r\x1b[9Bx", &["", "x", ""], (1, 1)),
            ("\x1b[1;2r\x1b[r\x1b[3H1\n2", &["", "1", " 2"], (2, 2)),
            ("1\r\n2\r\n3\x1b[1;2r\x1b[L", &["", "1", "3"], (0, 0)),
            ("1\r\n2\r\n3\x1b[1;2r\x1b[M", &["2", "", "3"], (0, 0)),
            (
                "1\r\n2\r\n3\x1b[1;2r\x1b[3;1H\x1b[L",
                &["1", "2", "3"],
                (0, 2),
            ),
            ("1\r\n2\r\n3\x1b[1;2r\x1b[3;1H\n4", &["1", "2", "4"], (1, 2)),
            (
                "1\r\n2\r\n3\x1b[1;2r\x1b[3;1H\n\n\n\n\n\n\n\n4",
                &["1", "2", "4"],
                (1, 2),
            ),
            (
                "1\r\n2\r\n3\x1b[1;2r\x1b[3;1H\
                abcdefghijklmnopqrstuvwxyzabcdefghijklmnopqrstuvwxyz",
                &["1", "2", "wxyzuv"],
                (4, 2),
            ),
            ("1\r\n2\r\n3\x1b[1;2r\x1b[S", &["2", "", "3"], (0, 0)),
            ("ab\x1b[3;2rc", &["abc", "", ""], (3, 0)),
            ("ab\x1b[2;2rc", &["abc", "", ""], (3, 0)),
            ("ab\x1b[1;99rc", &["cb", "", ""], (1, 0)),
            // The rows above the cursor are locked.
            (
                "1\r\n2\r\n3\x1b[2H\x1bl\x1b[3H\n4",
                &["1", "3", "4"],
                (1, 2),
            ),
            (
                "1\r\n2\r\n3\x1b[2H\x1bl\x1bm\x1b[3H\n4",
                &["2", "3", "4"],
                (1, 2),
            ),
            // The origin is at the margins.
            ("\x1b[2;3r\x1b[?6hx\x1b[9;1Hy", &["", "x", "y"], (1, 2)),
            ("\x1b[2;3r\x1b[?6h\x1b[2;3Hx", &["", "", "  x"], (3, 2)),
            (
                "\x1b[2;3r\x1b[?6h\x1b[2dx\x1b[1dy",
                &["", " y", "x"],
                (2, 1),
            ),
            ("\x1b[2;3r\x1b[?6h\x1b[?6lx", &["x", "", ""], (1, 0)),
            (
                "\x1b[2;3r\x1b[?6h\x1b7\x1b[?6l\x1b8\x1b[1;1Hx",
                &["", "x", ""],
                (1, 1),
            ),
        ],
    );
}

#[test]
fn margins_at_the_left_and_the_right() {
    const LETTERS: &str = "abcdef\r\nghijkl\r\nmnopqr\x1b[?69h\x1b[2;4s";
    let cases: [(&str, [&str; 3], (usize, usize)); 10] = [
        ("", ["abcdef", "ghijkl", "mnopqr"], (0, 0)),
        ("\x1b[S", ["ahijef", "gnopkl", "m   qr"], (0, 0)),
        ("\x1b[T", ["a   ef", "gbcdkl", "mhijqr"], (0, 0)),
        ("\x1b[1;2H\x1b[L", ["a   ef", "gbcdkl", "mhijqr"], (1, 0)),
        ("\x1b[1;2H\x1b[P", ["acd ef", "ghijkl", "mnopqr"], (1, 0)),
        ("\x1b[1;2H\x1b[@", ["a bcef", "ghijkl", "mnopqr"], (1, 0)),
        ("\x1b[1;3HXYZ", ["abXYef", "gZijkl", "mnopqr"], (2, 1)),
        // Cells are inserted between the margins alone.
        ("\x1b[4hXYZ", ["XYZbef", "ghijkl", "mnopqr"], (3, 0)),
        ("\x1b[4hかX", ["かXcef", "ghijkl", "mnopqr"], (3, 0)),
        (
            "\x1b[?69l\x1b[2HABCDEFG",
            ["abcdef", "ABCDEF", "Gnopqr"],
            (1, 2),
        ),
    ];
    for (bytes, wanted, cursor) in cases {
        let bytes = [LETTERS, bytes].concat();
        check(SIZE, &[(&bytes, &wanted, cursor)]);
    }
    check(
        SIZE,
        &[
            (
                "\x1b[?69h\x1b[2;4sabcdefgh",
                &["abcd", " efg", " h"],
                (2, 2),
            ),
            ("\x1b[?69h\x1b[2;4s\x1b[1;3Hx\ry", &[" yx", "", ""], (2, 0)),
            // No wrap waits where texts go on.
            (
                "\x1b[?7l\x1b[?69h\x1b[2;4sabcde\x1b[?69lx\u{301}",
                &["abcx\u{301}", "", ""],
                (4, 0),
            ),
            (
                "\x1b[?7l\x1b[?69h\x1b[2;4sabcd\x1b7\x1b[?69l\x1b8xy",
                &["abcxy", "", ""],
                (5, 0),
            ),
            (
                "\x1b[?69h\x1b[2;4s\x1b[?6hx\x1b[9;9Hy",
                &[" x", "", "   y"],
                (3, 2),
            ),
            (
                "\x1b[?69h\x1b[2;4s\x1b[1;3H\x1b[9Dx\x1b[9Cy",
                &[" x y", "", ""],
                (3, 0),
            ),
        ],
    );
}

#[test]
fn sets_of_characters() {
    check(
        SIZE,
        &[
            ("\x1b(0lqk\x1b(Bq", &["┌─┐q", "", ""], (4, 0)),
            ("\x1b)0\x0ex\x0fx", &["│x", "", ""], (2, 0)),
            ("\x1b(B\x1b)0\x0e`~\x0f`", &["◆·`", "", ""], (3, 0)),
            ("\x1b(0\x1b7\x1b(B\x1b8q", &["─", "", ""], (1, 0)),
            ("\x1b(A#\x1b(B#", &["£#", "", ""], (2, 0)),
            ("\x1b(0qqqqqqq", &["──────", "─", ""], (1, 1)),
            ("\x1b%Ga\x1b%@b", &["ab", "", ""], (2, 0)),
        ],
    );
}

#[test]
fn graphemes_are_repeated() {
    check(
        SIZE,
        &[
            ("ab\x1b[3b", &["abbbb", "", ""], (5, 0)),
            ("a\x1b[b", &["aa", "", ""], (2, 0)),
            ("a\x1b[9b", &["aaaaaa", "aaaa", ""], (4, 1)),
            ("か\x1b[2b", &["かかか", "", ""], (6, 0)),
            (
                "e\u{301}\x1b[2b",
                &["e\u{301}e\u{301}e\u{301}", "", ""],
                (3, 0),
            ),
            ("\x1b(0q\x1b[2b", &["───", "", ""], (3, 0)),
            ("a\r\x1b[3b", &["a", "", ""], (0, 0)),
            ("\x1b[65535b", &["", "", ""], (0, 0)),
            ("a\x1b[65535b", &["aaaaaa", "aaaaaa", "a"], (1, 2)), // and 18 more
        ],
    );
}

#[test]
fn strings_are_never_printed() {
    const END: [&str; 3] = ["ab", "", ""];
    let strings = [
        "P1$r✓0m",
        "_Gf=1;AAAA ✓",
        "^private ✓",
        "Xstart ✓",
        "]9;✓",
        "P\x07\n",
        "]x\n",
    ];
    for string in strings {
        for end in ["\x1b\\", "\x18", "\x1a"] {
            let terminal = fed_however(SIZE, format!("a\x1b{string}{end}b"));
            assert_eq!(rows(&terminal), END, "{string:?}, {end:?}");
        }
    }
    let unended: &[Case<'_>] = &[(
        "a\x1b[3\x18b\x1b[1\x1b[2Cc\x1b[1\x07Dd",
        &["ab  d", "", ""],
        (5, 0),
    )];
    check(SIZE, unended);
    assert_eq!(rows(&fed_however(SIZE, "a\x1bP text\x1b[2Cb"))[0], "a  b");
}

#[test]
fn resets() {
    check(
        SIZE,
        &[
            ("abc\x1bcx", &["x", "", ""], (1, 0)),
            (
                "\x1b[2;3r\x1b[4h\x1b[?6h\x1b)0\x0e\x1bcaxb\x1b[Hq",
                &["qxb", "", ""],
                (1, 0),
            ),
            ("abc\x1b[?1049hd\x1bcx\x1b[?1049l", &["x", "", ""], (0, 0)),
            (
                "\x1b[2;3r\x1b[4h\x1b[?6hab\x1b[!pc\x1b[Hd",
                &["d", "abc", ""],
                (1, 0),
            ),
            ("ab\x1b(0\x1b7\x1b[!pq\x1b8q", &["qbq", "", ""], (1, 0)),
            ("\x1b[2;3r\x1b#8", &["EEEEEE"; 3], (0, 0)),
            (
                "\x1b[2;3r\x1b[?6h\x1b#8\x1b[Hx",
                &["xEEEEE", "EEEEEE", "EEEEEE"],
                (1, 0),
            ),
            // Another width changes nothing, unless the switch is allowed.
            ("ab\x1b[?3hc\x1b[?3ld", &["abcd", "", ""], (4, 0)),
            (
                "ab\x1b[2;3r\x1b[?40h\x1b[?3hc\x1b[3H\n",
                &["", "", ""],
                (0, 2),
            ),
            (
                "\x1b[2;3r\x1b#8\x1b[3H\n",
                &["EEEEEE", "EEEEEE", ""],
                (0, 2),
            ),
        ],
    );
    let terminal = fed_however(SIZE, "\x1b[1;4;31ma\x1b[!pb");
    assert_eq!(attributes(&terminal, 1, 0), Attributes::default());
}

#[test]
fn cells_have_the_pen() {
    let terminal = fed_however(SIZE, "\x1b[1;31ma\x1b[0;44mb\x1b[2;1H\x1b[K\x1b[3H\n");
    let red = Attributes {
        intensity: Intensity::Bold,
        foreground: ColorAttribute::PaletteIndex(1),
        ..Attributes::default()
    };
    let blue = Attributes {
        background: ColorAttribute::PaletteIndex(4),
        ..Attributes::default()
    };
    let plain = Attributes::default();
    // The first row has scrolled off.
    let shown = [(0, 0), (5, 0), (0, 1), (5, 2)].map(|(x, y)| attributes(&terminal, x, y));
    assert_eq!(shown, [&blue, &blue, &plain, &blue].map(Clone::clone));
    let terminal = fed_however(
        SIZE,
        "\x1b[1;31ma\x1b[0;44mb\x1b[mc\x1b[44m\x1b[X\x1b[2@\x1b[L",
    );
    let shown = [0, 1, 2, 3, 4].map(|x| attributes(&terminal, x, 1));
    assert_eq!(shown, [&red, &blue, &plain, &blue, &blue].map(Clone::clone));
    let shown = [0, 5].map(|x| attributes(&terminal, x, 0));
    assert_eq!(shown, [&blue, &blue].map(Clone::clone));
}
