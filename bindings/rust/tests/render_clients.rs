//! What a client shows is written with the ids of its links.

use tikeburo::render::{Options, Renderer};
use tikeburo::{Client, Surface};

/// A client that is fed a repaint of one row: a text with no link, and one with a link to `u` whose
/// id is 7.
fn linked() -> Client {
    let mut bytes = vec![0x87, 2, 1, 4, 1, 0, 3, 0x83, 0x82, 2, 0x61, b'a'];
    bytes.extend([0x82, 0, 0x82, 9, 0x83, 0x61, b'u', 0xf4, 0x81]);
    bytes.extend([0x82, 0x62, b'i', b'd', 0x61, b'7']);
    bytes.extend([0x82, 2, 0x61, b'b']);
    let mut client = Client::new().unwrap();
    client.feed(&bytes).unwrap();
    client
}

#[test]
fn links_keep_their_ids() {
    let client = linked();
    let mut out = Vec::new();
    let mut renderer = Renderer::new(Options::new(4, 1));
    renderer.show(&mut out, client.screen()).unwrap();
    let text = String::from_utf8(out).unwrap();
    assert!(text.contains("a\x1b]8;id=7;u\x1b\\b"), "{text:?}");
}

#[test]
fn a_client_is_shown_as_its_surface() {
    let mut surface = Surface::new(9, 3).unwrap();
    let mut client = Client::new().unwrap();
    let [mut by_surface, mut by_client] = [0; 2].map(|_| Renderer::new(Options::new(9, 3)));
    for text in ["one か", "\r\ntwo e\u{301}", "\r\nthree\r\nfour"] {
        surface.add_change(text).unwrap();
        let answer = surface.respond(&client.ask().unwrap()).unwrap();
        client.feed(&answer).unwrap();
        let [mut wanted, mut out] = [0; 2].map(|_| Vec::new());
        by_surface.show(&mut wanted, &surface).unwrap();
        by_client.show(&mut out, client.screen()).unwrap();
        assert_eq!(out, wanted);
    }
}

#[test]
fn a_client_that_is_behind_its_surface_is_shown() {
    let mut surface = Surface::new(9, 3).unwrap();
    let mut client = Client::new().unwrap();
    surface.add_change("old").unwrap();
    let answer = surface.respond(&client.ask().unwrap()).unwrap();
    client.feed(&answer).unwrap();
    for text in ["\r1", "\r2", "\r3"].repeat(9) {
        surface.add_change(text).unwrap();
    }
    let mut out = Vec::new();
    let mut renderer = Renderer::new(Options::new(9, 3));
    renderer.show(&mut out, &surface).unwrap();
    out.clear();
    renderer.show(&mut out, client.screen()).unwrap();
    assert_eq!(out, b"\ro\x1b[2C");
}

#[test]
fn a_client_that_shows_nothing_is_blank() {
    let client = Client::new().unwrap();
    let mut out = Vec::new();
    let mut renderer = Renderer::new(Options::new(4, 2));
    renderer.show(&mut out, client.screen()).unwrap();
    assert!(out.ends_with(b"\x1b[2J\x1b[?25h"));
}
