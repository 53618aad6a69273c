//! Bytes of no program: they never end the process, show the same wherever they are cut, and make
//! no more changes than a screen for each sequence.

mod support;

use support::parts::{part, Random};
use support::{fed, seen};
use tikeburo::Widths;
use tikeburo_terminal::Terminal;

/// Feeds bytes in parts of random lengths.
fn feed_cut(terminal: &mut Terminal, bytes: &[u8], random: &mut Random) {
    let mut rest = bytes;
    while !rest.is_empty() {
        let length = rest.len().min(1 + random.below(7));
        terminal.feed(&rest[..length]).unwrap();
        rest = &rest[length..];
    }
}

fn check(size: (usize, usize), bytes: &[u8], random: &mut Random) {
    let mut whole = fed(size, Widths::Unicode, [bytes]);
    let mut cut = fed(size, Widths::Unicode, []);
    feed_cut(&mut cut, bytes, random);
    let name = String::from_utf8_lossy(bytes);
    assert_eq!(seen(&cut), seen(&whole), "{name:?}");
    assert_eq!(cut.take_reports(), whole.take_reports(), "{name:?}");
    assert_eq!(cut.unknown_count(), whole.unknown_count(), "{name:?}");
}

#[test]
fn random_sequences_show_the_same_wherever_they_are_cut() {
    let mut random = Random::new(1);
    for count in 0..1500 {
        let size = *random.pick(&[(1, 1), (2, 2), (7, 3), (20, 5), (80, 24)]);
        let bytes: String = (0..1 + count % 40).map(|_| part(&mut random)).collect();
        check(size, bytes.as_bytes(), &mut random);
    }
}

#[test]
fn random_bytes_show_the_same_wherever_they_are_cut() {
    let mut random = Random::new(2);
    for count in 0..1500 {
        let byte = |random: &mut Random| match random.below(6) {
            0 => 0x1b,
            1 => *random.pick(b"[]P_0;?\\"),
            2 => random.below(256) as u8,
            _ => b' ' + random.below(95) as u8,
        };
        let bytes: Vec<_> = (0..count % 100).map(|_| byte(&mut random)).collect();
        check((7, 3), &bytes, &mut random);
    }
}

#[test]
fn sizes_change_at_any_time() {
    let mut random = Random::new(3);
    let mut terminal = Terminal::new(7, 3).unwrap();
    terminal.keep_scrollback(50).unwrap();
    for _ in 0..3000 {
        terminal.feed(part(&mut random).as_bytes()).unwrap();
        if random.below(5) == 0 {
            let size = (1 + random.below(30), 1 + random.below(10));
            terminal.resize(size.0, size.1).unwrap();
            assert_eq!(terminal.surface().dimensions(), size);
        }
        let (x, y) = terminal.surface().cursor_position();
        let (width, height) = terminal.surface().dimensions();
        assert!(x <= width && y < height);
        assert!(terminal.scrollback().unwrap().len() <= 50);
    }
}

#[test]
fn a_sequence_makes_no_more_changes_than_a_screen_takes() {
    let (width, height) = (20, 5);
    let mut random = Random::new(4);
    for _ in 0..300 {
        let parts: Vec<_> = (0..20).map(|_| part(&mut random)).collect();
        let terminal = fed(
            (width, height),
            Widths::Unicode,
            [parts.concat().as_bytes()],
        );
        let bytes: usize = parts.iter().map(String::len).sum();
        // A move, a pen and a text or a clear for each cell of a part, at most.
        let most = 3 * (width * height * parts.len() + bytes);
        assert!(terminal.surface().current_seqno() <= most);
    }
    let counts = "\x1b[65535b\x1b[65535@\x1b[65535P\x1b[65535X\x1b[65535L\x1b[65535M\x1b[65535S";
    let counts = format!("x{}", counts.repeat(50));
    let terminal = fed((width, height), Widths::Unicode, [counts.as_bytes()]);
    assert!(terminal.surface().current_seqno() < 3 * 7 * 50);
}
