//! Clients show what surfaces showed, by way of bytes, and viewers without.

use std::thread;
use tikeburo::{
    AnswerHead, Ask, AttributeChange, Cell, Change, Client, Error, FaultKind, Hyperlink, Limits,
    Options, Screen, Surface, Taken, Viewer, Widths,
};

/// All that is seen of a screen.
fn seen(screen: &Screen) -> (Vec<Vec<Cell>>, (usize, usize), String) {
    let cells = |row: tikeburo::Row<'_>| row.cells().map(Result::unwrap).collect();
    (
        screen.rows().map(cells).collect(),
        screen.cursor_position(),
        screen.title().unwrap(),
    )
}

fn titled(text: &str, title: &str) -> Surface {
    let mut surface = Surface::new(12, 3).unwrap();
    surface.add_change(text).unwrap();
    surface.add_change(Change::Title(title.into())).unwrap();
    surface
}

fn pair() -> (Surface, Client) {
    (
        titled("hello か\r\nsame screen", "notes"),
        Client::new().unwrap(),
    )
}

/// What the client lacks of the surface.
fn answer(surface: &mut Surface, client: &Client) -> Vec<u8> {
    surface.respond(&client.ask().unwrap()).unwrap()
}

/// The fault of bytes that a client is fed: its kind, its place and its change.
fn fault(outcome: Result<usize, Error>) -> (FaultKind, usize, Option<usize>) {
    match outcome {
        Err(Error::Fault(fault)) => (fault.kind, fault.at, fault.change),
        other => panic!("{other:?}"),
    }
}

#[test]
fn a_client_shows_what_the_surface_shows() {
    let (mut surface, mut client) = pair();
    for text in ["", "one", "\r\ntwo", "\r\nthree"] {
        surface.add_change(text).unwrap();
        client.feed(&answer(&mut surface, &client)).unwrap();
        assert_eq!(seen(client.screen()), seen(&surface));
    }
    surface.resize(5, 5).unwrap();
    client.feed(&answer(&mut surface, &client)).unwrap();
    assert_eq!(seen(client.screen()), seen(&surface));
}

#[test]
fn links_keep_their_ids() {
    let (mut surface, mut client) = pair();
    let mut viewer = Viewer::new(&surface).unwrap();
    for (uri, id) in [("uri:a", "7"), ("uri:a", ""), ("uri:か", "か")] {
        let link = Some(Hyperlink::new_with_id(uri, id));
        let change = AttributeChange::Hyperlink(link.clone());
        surface.add_change(change).unwrap();
        surface.add_change("\r\nlinked").unwrap();
        client.feed(&answer(&mut surface, &client)).unwrap();
        viewer.follow(&surface).unwrap();
        for screen in [client.screen(), viewer.screen()] {
            assert_eq!(seen(screen), seen(&surface));
            assert_eq!(screen.pen().unwrap().hyperlink, link);
        }
        let copy = Surface::copy_of(&surface).unwrap();
        let cell = copy.row(2).cell(0).unwrap();
        assert_eq!(cell.attrs().hyperlink, link);
    }
}

#[test]
fn answers_come_in_any_pieces() {
    let (mut surface, mut client) = pair();
    let repaint = answer(&mut surface, &client);
    let (last, front) = repaint.split_last().unwrap();
    for byte in front {
        assert_eq!(client.feed(&[*byte]), Ok(0));
    }
    assert_eq!(client.screen().title().unwrap(), "");
    let both = [&[*last][..], &repaint, &[]].concat(); // and again, which changes nothing
    assert_eq!(client.feed(&both), Ok(2));
    assert_eq!(seen(client.screen()), seen(&surface));
}

#[test]
fn answers_are_taken_one_by_one() {
    let (mut surface, mut client) = pair();
    let repaint = answer(&mut surface, &client);
    client.feed(&repaint).unwrap();
    surface.add_change("!").unwrap();
    let delta = answer(&mut surface, &client);
    client
        .keep(&[&delta[..], &delta, &repaint[..9]].concat())
        .unwrap();
    assert_ne!(seen(client.screen()), seen(&surface));
    assert_eq!(client.take_answer(), Ok(Some(Taken::Shown)));
    assert_eq!(seen(client.screen()), seen(&surface));
    // It comes again: what is shown has another number than its base.
    assert!(matches!(
        client.take_answer(),
        Ok(Some(Taken::Stale { at: 5.. }))
    ));
    assert_eq!(client.take_answer(), Ok(None));
    client.reset();
    client.keep(&[0x80]).unwrap();
    let found = fault(client.take_answer().map(|_| 0));
    assert_eq!(found, (FaultKind::Type, 0, None));
    assert!(client.keep(&delta).is_err());
}

#[test]
fn heads_say_whose_answers_are_and_what_they_lead_on_from() {
    let (mut surface, mut client) = pair();
    let repaint = answer(&mut surface, &client);
    let first = AnswerHead::read(&repaint).unwrap();
    assert!(first.is_repaint());
    assert_eq!((first.width, first.height), (12, 3));
    assert_eq!(first.number, surface.current_seqno());

    client.feed(&repaint).unwrap();
    surface.add_change("か").unwrap();
    let delta = answer(&mut surface, &client);
    let second = AnswerHead::read(&delta).unwrap();
    assert!(!second.is_repaint());
    assert_eq!((second.source, second.base), (first.source, first.number));
    assert_eq!(
        (second.number, second.changes),
        (surface.current_seqno(), 1)
    );

    let (mut other, new) = pair();
    let other = AnswerHead::read(&answer(&mut other, &new)).unwrap();
    assert_ne!(other.source, first.source);
}

#[test]
fn heads_are_read_where_the_changes_are_not_there() {
    let (mut surface, client) = pair();
    let repaint = answer(&mut surface, &client);
    let head = AnswerHead::read(&repaint).unwrap();
    let fronts = (0..repaint.len()).map(|len| AnswerHead::read(&repaint[..len]));
    let (heads, cut): (Vec<_>, Vec<_>) = fronts.partition(Result::is_ok);
    assert!(!heads.is_empty() && heads.iter().all(|read| *read == Ok(head)));
    assert!(!cut.is_empty() && cut.iter().all(|read| *read == Err(Error::Truncated)));

    let ask = client.ask().unwrap();
    let wrong: [&[u8]; 4] = [
        ask.as_bytes(),
        &[0x87, 1],
        &[0x87, 2, 0],
        &[0x87, 2, 1, 4, 3, 5, 4],
    ];
    for bytes in wrong {
        assert_eq!(AnswerHead::read(bytes), Err(Error::Unreadable));
    }
}

#[test]
fn late_and_repeated_answers_change_nothing() {
    let (mut surface, mut client) = pair();
    client.feed(&answer(&mut surface, &client)).unwrap();
    surface.add_change("x").unwrap();
    let late = answer(&mut surface, &client);
    surface.add_change("y").unwrap();
    client.feed(&answer(&mut surface, &client)).unwrap();
    client.feed(&late).unwrap();
    client.feed(&late).unwrap();
    assert_eq!(seen(client.screen()), seen(&surface));
}

#[test]
fn a_client_never_shows_a_mixture() {
    let (mut first, mut client) = pair();
    let mut second = titled("another\r\nscreen", "other");
    let mut other = Client::new().unwrap();
    client.feed(&answer(&mut first, &client)).unwrap();
    other.feed(&answer(&mut second, &other)).unwrap();
    first.add_change("1").unwrap();
    second.add_change("2").unwrap();
    let delta = answer(&mut second, &other);
    let before = seen(client.screen());
    client.feed(&delta).unwrap(); // its base is the client's number, and its surface isn't
    assert_eq!(seen(client.screen()), before);
    client.feed(&answer(&mut second, &client)).unwrap(); // a repaint, since it asks with the first
    assert_eq!(seen(client.screen()), seen(&second));
    client.feed(&answer(&mut first, &client)).unwrap();
    assert_eq!(seen(client.screen()), seen(&first));
}

#[test]
fn faults_have_their_places() {
    let (mut surface, mut client) = pair();
    let repaint = answer(&mut surface, &client);
    let mut wrong = repaint.clone();
    wrong[1] = 1;
    let found = fault(client.feed(&wrong));
    assert_eq!(found, (FaultKind::Version, 1, None));
    client.reset();
    assert_eq!(client.feed(&repaint), Ok(1));
    let found = fault(client.feed(&[0x80]));
    assert_eq!(found, (FaultKind::Type, 0, None));
    client.reset();
    let change = [0x87, 2, 1, 1, 1, 0, 0, 0x82, 0x82, 9, 0xf5, 0x82, 9, 0];
    let found = fault(client.feed(&change));
    assert_eq!(found, (FaultKind::Type, 13, Some(1)));
    assert_eq!(seen(client.screen()), seen(&surface));
    let shown = client.feed(&change).unwrap_err().to_string();
    assert!(shown.ends_with("type at 13 in change 1"), "{shown}");
}

#[test]
fn a_reset_begins_a_new_stream() {
    let (mut surface, mut client) = pair();
    let repaint = answer(&mut surface, &client);
    client.feed(&repaint[..9]).unwrap(); // and the connection is lost
    client.reset();
    client.feed(&answer(&mut surface, &client)).unwrap();
    assert_eq!(seen(client.screen()), seen(&surface));
}

#[test]
fn limits_are_kept() {
    let (mut surface, mut client) = pair();
    let repaint = answer(&mut surface, &client);
    for (cells, bytes, is_taken) in [
        (36, repaint.len(), true),
        (35, repaint.len(), false),
        (36, repaint.len() - 1, false),
    ] {
        let limits = Limits::new().cells(cells).bytes(bytes);
        client = Client::with_limits(Widths::Unicode, limits).unwrap();
        match client.feed(&repaint) {
            Ok(taken) => assert_eq!(taken, usize::from(is_taken)),
            Err(Error::Fault(fault)) => assert!(!is_taken && fault.kind == FaultKind::Limit),
            Err(error) => panic!("{error}"),
        }
    }
    let limits = Limits::new().bytes(0);
    let refused = Client::with_limits(Widths::Unicode, limits);
    assert_eq!(refused.unwrap_err(), Error::Range);
}

#[test]
fn clients_that_measure_otherwise_find_it() {
    let (mut surface, _) = pair();
    let mut client = Client::with_limits(Widths::OneColumn, Limits::default()).unwrap();
    let (kind, _, _) = fault(client.feed(&answer(&mut surface, &client)));
    assert_eq!(kind, FaultKind::Measure);
    let options = Options::new().widths(Widths::OneColumn);
    surface = Surface::with_options(12, 3, options).unwrap();
    surface.add_change("hello か").unwrap();
    client.reset();
    client.feed(&answer(&mut surface, &client)).unwrap();
    assert_eq!(seen(client.screen()), seen(&surface));
}

#[test]
fn asks_are_refused_by_name() {
    let (mut surface, client) = pair();
    let ask = client.ask().unwrap().into_bytes();
    assert_eq!(ask, [0x83, 2, 0, 0]);
    for len in 0..ask.len() {
        let cut = Ask::from(&ask[..len]);
        assert_eq!(surface.respond(&cut), Err(Error::Truncated));
    }
    for wrong in [&[0x83, 1, 0, 0][..], &[0x83, 2, 0, 1], &[0x83, 2, 0, 0, 0]] {
        assert_eq!(surface.respond(&Ask::from(wrong)), Err(Error::Unreadable));
    }
}

#[test]
fn a_viewer_follows_any_surface() {
    let (mut surface, _) = pair();
    let mut viewer = Viewer::new(&surface).unwrap();
    viewer.follow(&surface).unwrap();
    surface.resize(20, 2).unwrap();
    viewer.follow(&surface).unwrap();
    assert_eq!(seen(viewer.screen()), seen(&surface));
    let other = titled("other", "another title");
    viewer.follow(&other).unwrap();
    assert_eq!(seen(viewer.screen()), seen(&other));
    let mut second = Viewer::new(viewer.screen()).unwrap();
    second.follow(viewer.screen()).unwrap();
    assert_eq!(seen(second.screen()), seen(&other));
    second.follow(&surface).unwrap();
    drop(surface);
    assert_eq!(second.screen().dimensions(), (20, 2));
}

#[test]
fn an_answer_goes_to_another_thread() {
    let (mut surface, client) = pair();
    let bytes = answer(&mut surface, &client);
    let there = thread::spawn(move || {
        let mut client = Client::new().unwrap();
        client.feed(&bytes).unwrap();
        seen(client.screen())
    });
    assert_eq!(there.join().unwrap(), seen(&surface));
}

#[test]
fn who_lacks_nothing_asks_what_is_current() {
    let mut surface = Surface::new(4, 2).unwrap();
    let mut client = Client::new().unwrap();
    assert_eq!(client.ask().unwrap(), Ask::default());
    let acts: [fn(&mut Surface); 6] = [
        |_| {},
        |surface| assert_eq!(surface.add_change("か"), Ok(0)),
        |surface| surface.resize(6, 3).unwrap(),
        |surface| assert!(surface.copy_region(0, 0, 2, 1, 2, 1).is_ok()),
        |surface| assert!(surface.add_change(Change::Title("x".into())).is_ok()),
        |surface| assert!(surface.add_changes(&vec!["x\r\n".into(); 1000]).is_ok()),
    ];
    for act in acts {
        act(&mut surface);
        assert_ne!(client.ask().unwrap(), surface.current_ask());
        client.feed(&answer(&mut surface, &client)).unwrap();
        assert_eq!(client.ask().unwrap(), surface.current_ask());
    }
    let other = Surface::new(6, 3).unwrap();
    assert_ne!(client.ask().unwrap(), other.current_ask());
}

// The second is hand-made of the numbers in RFC 8949, appendix A.
const ASKS: [(u64, u64, &[u8]); 3] = [
    (0, 0, &[0x83, 2, 0, 0]),
    (
        1_000_000,
        1_000_000_000_000,
        &[
            0x83, 2, 0x1a, 0, 0x0f, 0x42, 0x40, 0x1b, 0, 0, 0, 0xe8, 0xd4, 0xa5, 0x10, 0,
        ],
    ),
    (23, 1000, &[0x83, 2, 0x17, 0x19, 0x03, 0xe8]),
];

#[test]
fn an_ask_has_a_source_and_a_number() {
    for (source, number, bytes) in ASKS {
        assert_eq!(Ask::new(source, number).as_bytes(), bytes);
        let ask = Ask::from(bytes);
        assert_eq!((ask.source(), ask.number()), (Ok(source), Ok(number)));
    }
    let mut surface = Surface::new(4, 1).unwrap();
    surface.add_change("a").unwrap();
    let head = AnswerHead::read(&surface.respond(&Ask::default()).unwrap()).unwrap();
    let ask = surface.current_ask();
    assert_eq!(ask.source(), Ok(head.source));
    assert_eq!(ask.number(), Ok(head.number as u64));
}

#[test]
fn what_is_no_ask_is_refused_as_a_surface_refuses_it() {
    let mut surface = Surface::new(4, 1).unwrap();
    let mut judge = |bytes: &[u8]| {
        let ask = Ask::from(bytes);
        let refused = surface.respond(&ask).err();
        assert_eq!(ask.source().err(), refused, "{bytes:?}");
        assert_eq!(ask.number().err(), refused, "{bytes:?}");
    };
    for (_, _, bytes) in ASKS {
        (0..bytes.len()).for_each(|len| judge(&bytes[..len]));
        judge(&[bytes, &[0]].concat());
        for at in 0..bytes.len() {
            for byte in 0..=255 {
                let mut other = bytes.to_vec();
                other[at] = byte;
                judge(&other);
            }
        }
    }
}
