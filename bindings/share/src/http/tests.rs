//! The server over connections of this machine, with a screen of made-up bytes.

use super::*;
use crate::hub::tests::{shown, Numbers, SOURCE};
use crate::hub::End;
use std::io::{ErrorKind, Read, Write};
use std::net::{SocketAddr, TcpStream};
use std::sync::{Mutex, Weak};
use std::thread;
use std::time::{Duration, Instant};
use tokio::runtime::{Builder, Runtime};

const PATIENCE: Duration = Duration::from_secs(20);

/// A server with a screen that answers at once what only it can answer.
struct Served {
    _runtime: Runtime,
    address: SocketAddr,
    token: String,
    hub: Arc<Hub>,
    screen: Arc<Mutex<Numbers>>,
    connections: Arc<Connections>,
}

fn make_hub(screen: &Arc<Mutex<Numbers>>) -> Arc<Hub> {
    Arc::new_cyclic(|hub: &Weak<Hub>| {
        let (hub, screen) = (hub.clone(), Arc::clone(screen));
        Hub::new(move || {
            let hub = hub.upgrade().unwrap();
            hub.tick(&mut *screen.lock().unwrap()).unwrap();
        })
    })
}

impl Served {
    fn start(most: usize) -> Served {
        let runtime = Builder::new_multi_thread()
            .worker_threads(1)
            .enable_all()
            .build()
            .unwrap();
        let context = runtime.enter();
        let listener = bind("127.0.0.1:0".parse().unwrap()).unwrap();
        let address = listener.local_addr().unwrap();
        let screen = Arc::new(Mutex::new(Numbers::new()));
        let hub = make_hub(&screen);
        let connections = Connections::new(most);
        let token = Token::random().unwrap();
        let text = token.to_string();
        let (own, hosts) = (Arc::clone(&hub), Hosts::new(address, None));
        let site = Site {
            hub: own,
            token,
            hosts,
        };
        runtime.spawn(serve(listener, Arc::new(site), Arc::clone(&connections)));
        drop(context);
        Served {
            _runtime: runtime,
            address,
            token: text,
            hub,
            screen,
            connections,
        }
    }

    fn connect(&self) -> TcpStream {
        let stream = TcpStream::connect(self.address).unwrap();
        stream.set_read_timeout(Some(PATIENCE)).unwrap();
        stream
    }

    fn head(&self, method: &str, name: &str) -> String {
        let Served { address, token, .. } = self;
        format!("{method} /{token}/{name} HTTP/1.1\r\nhost: {address}\r\n\r\n")
    }

    /// Asks for a name below the token, and returns what comes first.
    fn get(&self, name: &str) -> Viewer {
        self.send(&self.head("GET", name))
    }

    fn send(&self, request: &str) -> Viewer {
        let mut stream = self.connect();
        stream.write_all(request.as_bytes()).unwrap();
        Viewer {
            stream,
            text: String::new(),
        }
    }

    /// The screen shows this number from now on.
    fn show(&self, number: u64) {
        let mut screen = self.screen.lock().unwrap();
        screen.shown = shown(number);
        self.hub.tick(&mut *screen).unwrap();
    }
}

/// A connection, and what has come over it.
struct Viewer {
    stream: TcpStream,
    text: String,
}

impl Viewer {
    /// Waits until what has come has this at its end, or anywhere.
    fn expect(&mut self, wanted: &str) -> &str {
        let mut room = [0; 4096];
        while !self.text.contains(wanted) {
            match self.stream.read(&mut room) {
                Ok(length @ 1..) => self.text += std::str::from_utf8(&room[..length]).unwrap(),
                other => panic!("{other:?} after {:?}, without {wanted:?}", self.text),
            }
        }
        &self.text
    }

    fn status(&mut self) -> u16 {
        self.expect("\r\n\r\n")[9..12].parse().unwrap()
    }

    fn is_closed(&mut self) -> bool {
        let read = self.stream.read(&mut [0; 4096]);
        match read {
            Ok(length) => length == 0,
            Err(error) => error.kind() == ErrorKind::ConnectionReset,
        }
    }
}

fn until(holds: impl Fn() -> bool) {
    let end = Instant::now() + PATIENCE;
    while !holds() {
        assert!(Instant::now() < end);
        thread::sleep(Duration::from_millis(5));
    }
}

/// A chunk of the encoding that HTTP/1.1 has for bodies.
fn chunk(text: &str) -> String {
    format!("{:X}\r\n{text}\r\n", text.len())
}

#[test]
fn who_shows_nothing_gets_the_screen_and_what_follows() {
    let served = Served::start(8);
    let mut viewer = served.get("stream/0/0");
    viewer.expect(&chunk("all of 10"));
    assert_eq!(viewer.status(), 200);
    for line in [
        "content-type: application/cbor-seq\r\n",
        "cache-control: public, max-age=1, stale-while-revalidate=0\r\n",
        "access-control-allow-origin: *\r\n",
        "referrer-policy: no-referrer\r\n",
        "transfer-encoding: chunked\r\n",
    ] {
        viewer.expect(line);
    }
    served.show(11);
    viewer.expect(&chunk("10 to 11"));
}

#[test]
fn a_response_ends_with_the_first_answer_of_another_second() {
    let served = Served::start(8);
    let mut viewer = served.get("stream/0/0");
    viewer.expect("all of 10");
    thread::sleep(Duration::from_millis(1001));
    served.show(12);
    viewer.expect(&(chunk("10 to 12") + "0\r\n\r\n"));
    // The next request goes over the same connection.
    let next = served.head("GET", &format!("stream/{SOURCE}/12"));
    viewer.stream.write_all(next.as_bytes()).unwrap();
    until(|| served.hub.is_asked(shown(12)));
    served.show(13);
    viewer.expect(&chunk("12 to 13"));
}

#[test]
fn a_request_of_http_1_0_gets_one_answer() {
    let served = Served::start(8);
    let request = served
        .head("GET", "stream/0/0")
        .replace("HTTP/1.1", "HTTP/1.0");
    let mut viewer =
        served.send(&request.replace("\r\n\r\n", "\r\nconnection: keep-alive\r\n\r\n"));
    viewer.expect("\r\n\r\nall of 10");
    viewer.expect("content-length: 9\r\n");
    // The connection stays.
    viewer.text.clear();
    viewer.stream.write_all(request.as_bytes()).unwrap();
    viewer.expect("\r\n\r\nall of 10");
    assert!(viewer.is_closed());
}

#[test]
fn a_stream_goes_on() {
    let served = Served::start(8);
    let mut viewer = served.get("stream");
    viewer.expect("cache-control: no-store\r\n");
    viewer.expect("all of 10");
    thread::sleep(Duration::from_millis(1001));
    served.show(11);
    viewer.expect("10 to 11");
    served.show(12);
    viewer.expect("11 to 12");
    served.hub.end(End { status: None });
    viewer.expect("0\r\n\r\n");
}

#[test]
fn a_number_has_one_spelling() {
    let served = Served::start(8);
    for name in [
        "stream/01/2",
        "stream/1/02",
        "stream/+1/2",
        "stream/1/2/",
        "stream/1/",
        "stream/1",
        "stream/",
        "stream//",
        "stream/1/-2",
        "stream/1/2/3",
        "stream/ 1/2",
        "stream/1/18446744073709551616",
        "stream/%31/2",
        "streams/1/2",
        "page",
    ] {
        let status = served.get(name).status();
        assert!(
            status == 404 || name.contains(' ') && status == 400,
            "{name}: {status}"
        );
    }
    assert_eq!(
        served
            .get("stream/18446744073709551615/18446744073709551615")
            .status(),
        200
    );
    assert_eq!(served.get("stream/0/0?a=b").status(), 200);
}

#[test]
fn what_is_no_request_of_a_viewer_is_refused() {
    let served = Served::start(8);
    let Served { address, token, .. } = &served;
    let other = format!("{:x}", u8::from_str_radix(&token[..1], 16).unwrap() ^ 1);
    let head = |path: &str, fields: &str| format!("GET {path} HTTP/1.1\r\n{fields}\r\n\r\n");
    let own = format!("host: {address}");
    let (page, long) = (
        format!("/{token}/"),
        format!("{own}\r\na: {}", "b".repeat(9000)),
    );
    let wrong = format!("/{other}{}/", &token[1..]);
    for (request, status) in [
        (head(&page, &own), 200),
        (head("/", &own), 404),
        (head("/stream", &own), 404),
        (head(&wrong, &own), 404),
        (head(&format!("{wrong}stream/0/0"), &own), 404),
        (head(&format!("/{token}"), &own), 404),
        (head(&format!("/{}/", token.to_uppercase()), &own), 404),
        (head(&page, "a: b"), 421),
        (head(&page, "host: a.example"), 421),
        (head(&page, &format!("{own}\r\nhost: a.example")), 421),
        (head(&page, &long), 431),
        (served.head("POST", "stream/0/0"), 405),
        (served.head("PUT", ""), 405),
        ("a line and no more\r\n\r\n".into(), 400),
    ] {
        assert_eq!(served.send(&request).status(), status, "{request:.80}");
    }
}

#[test]
fn another_name_is_told_the_option_that_allows_it() {
    let served = Served::start(8);
    let request = served
        .head("GET", "")
        .replace("host: ", "host: a.example\r\nx: ");
    served.send(&request).expect("--url");
}

#[test]
fn the_page_is_served() {
    let served = Served::start(8);
    for (name, kind) in [
        ("", "text/html; charset=utf-8"),
        ("element.mjs", "text/javascript"),
    ] {
        let mut viewer = served.get(name);
        viewer.expect(&format!("content-type: {kind}\r\n"));
        viewer.expect("cache-control: no-store\r\n");
        viewer.expect("referrer-policy: no-referrer\r\n");
        viewer.expect("content-security-policy: default-src 'self'");
    }
    let mut head = served.send(&served.head("HEAD", "page.css"));
    assert_eq!(head.status(), 200);
}

#[test]
fn the_end_is_said_with_the_exit_status() {
    let served = Served::start(8);
    served.show(10);
    let mut waits = served.get(&format!("stream/{SOURCE}/10"));
    until(|| served.hub.is_asked(shown(10)));
    served.hub.end(End { status: Some(7) });
    assert_eq!(waits.status(), 410);
    waits.expect("exit-status: 7\r\n");
    waits.expect("access-control-expose-headers: exit-status\r\n");
    waits.expect("The program has ended.");
    assert!(waits.is_closed());
    let mut late = served.get("stream/0/0");
    late.expect("all of 10");
    late.expect("0\r\n\r\n");
    until(|| served.connections.following() == 1);
}

#[test]
fn an_abandoned_ask_is_noticed() {
    let served = Served::start(8);
    served.show(10);
    let asks = [(); 3].map(|()| served.get(&format!("stream/{SOURCE}/10")));
    until(|| served.connections.following() == 3);
    until(|| served.hub.is_asked(shown(10)));
    drop(asks);
    until(|| served.connections.following() == 0);
    assert!(!served.hub.is_asked(shown(10)));
}

#[test]
fn idle_connections_lock_no_viewer_out() {
    let served = Served::start(8);
    let mut viewer = served.get("stream/0/0");
    viewer.expect("all of 10");
    let idle: Vec<_> = (0..100).map(|_| served.connect()).collect();
    let begun = served.send("GET / HTTP/1.1\r\n");
    for _ in 0..20 {
        served.get("stream/0/0").expect("all of 10");
    }
    served.show(11);
    viewer.expect("10 to 11");
    drop((idle, begun));
}
