//! The server: a page and the screen that it shows, for whoever has the address, and for caches
//! that stand between. What is asked for is `stream/SOURCE/NUMBER`, below the token, and the
//! response leads on from there.

mod chain;
mod connections;
mod files;
mod hosts;
mod listen;
mod token;

pub use connections::Connections;
pub use hosts::{Hosts, Url};
pub use listen::{bind, serve};
pub use token::Token;

use crate::hub::{Answer, Hub, Shown};
use chain::{chain, Until};
use connections::{Busy, Place};
use files::FILES;
use hyper::header::{self, HeaderName, HeaderValue};
use hyper::{Body, Method, Request, Response, StatusCode, Version};
use std::sync::Arc;

const EXIT_STATUS: &str = "exit-status"; // of the program, where a response says the end
const NEVER: &str = "no-store";
// An answer leads on from what it was asked for, whenever it was made. So caches may keep it, but
// not for long: viewers would be late.
const SHORTLY: &str = "public, max-age=1, stale-while-revalidate=0";
const SEQUENCE: &str = "application/cbor-seq";
const TEXT: &str = "text/plain";
// What a refused response says.
const OTHER_NAME: &str = "The server has another name. Start share with --url to use this one.\n";
const NONE: &str = "There is no such screen, or no longer.\n";
const METHODS: &str = "GET and HEAD are the only methods.\n";
const ENDED: &str = "The program has ended.\n";
const OWN_FILES: &str = "default-src 'self'; frame-ancestors 'none'";

/// What all connections share.
pub struct Site {
    pub hub: Arc<Hub>,
    pub token: Token,
    pub hosts: Hosts,
}

fn respond(status: StatusCode, cached: &'static str, body: Body) -> Response<Body> {
    let mut response = Response::new(body);
    *response.status_mut() = status;
    let headers = response.headers_mut();
    let mut insert =
        |name: HeaderName, value| headers.insert(name, HeaderValue::from_static(value));
    insert(header::CACHE_CONTROL, cached);
    insert(header::REFERRER_POLICY, "no-referrer");
    insert(header::X_CONTENT_TYPE_OPTIONS, "nosniff");
    response
}

/// A response that pages of other origins may read too, if they have the token.
fn respond_to_all(status: StatusCode, cached: &'static str, body: Body) -> Response<Body> {
    let mut response = respond(status, cached, body);
    let headers = response.headers_mut();
    let mut insert =
        |name: HeaderName, value| headers.insert(name, HeaderValue::from_static(value));
    insert(header::ACCESS_CONTROL_ALLOW_ORIGIN, "*");
    insert(header::ACCESS_CONTROL_EXPOSE_HEADERS, EXIT_STATUS);
    response
}

/// A response that says why there is nothing, after which the connection closes.
fn refuse(status: StatusCode, cached: &'static str, why: &'static str) -> Response<Body> {
    let mut response = respond_to_all(status, cached, why.into());
    let headers = response.headers_mut();
    headers.insert(header::CONTENT_TYPE, HeaderValue::from_static(TEXT));
    headers.insert(header::CONNECTION, HeaderValue::from_static("close"));
    response
}

fn send_file(kind: &'static str, text: &'static str) -> Response<Body> {
    let mut response = respond(StatusCode::OK, NEVER, text.into());
    let headers = response.headers_mut();
    let mut insert =
        |name: HeaderName, value| headers.insert(name, HeaderValue::from_static(value));
    insert(header::CONTENT_TYPE, kind);
    insert(header::CONTENT_SECURITY_POLICY, OWN_FILES);
    response
}

/// Reads what a viewer shows that asks by this name, as by `17/42`. Each has one spelling.
fn read_name(name: &str) -> Option<Shown> {
    let (source, number) = name.split_once('/')?;
    let (source, number) = (source.parse().ok()?, number.parse().ok()?);
    (name == format!("{source}/{number}")).then_some(Shown { source, number })
}

impl Site {
    async fn respond(&self, place: &Arc<Place>, request: &Request<Body>) -> Response<Body> {
        let path = request.uri().path().strip_prefix('/').unwrap_or_default();
        let (token, name) = path.split_once('/').unwrap_or((path, "none"));
        if !self.names_this(request) {
            return refuse(StatusCode::MISDIRECTED_REQUEST, NEVER, OTHER_NAME);
        }
        if !self.token.is(token) {
            return refuse(StatusCode::NOT_FOUND, SHORTLY, NONE);
        }
        if ![Method::GET, Method::HEAD].contains(request.method()) {
            let mut response = refuse(StatusCode::METHOD_NOT_ALLOWED, NEVER, METHODS);
            let headers = response.headers_mut();
            headers.insert(header::ALLOW, HeaderValue::from_static("GET, HEAD"));
            return response;
        }
        let busy = place.work();
        // A cache that waits for the end of a response, as nginx's does, asks by HTTP/1.0.
        let until = match request.version() {
            Version::HTTP_10 => Until::First,
            _ => Until::Segment,
        };
        if let Some((_, kind, text)) = FILES.iter().find(|file| file.0 == name) {
            return send_file(kind, text);
        }
        if name == "stream" {
            return self
                .lead_on(Shown::default(), Until::End, NEVER, busy)
                .await;
        }
        match name.strip_prefix("stream/").and_then(read_name) {
            Some(shown) => self.lead_on(shown, until, SHORTLY, busy).await,
            None => refuse(StatusCode::NOT_FOUND, SHORTLY, NONE),
        }
    }

    fn names_this(&self, request: &Request<Body>) -> bool {
        let mut hosts = request.headers().get_all(header::HOST).iter();
        let host = hosts.next().and_then(|host| host.to_str().ok());
        host.is_some_and(|host| self.hosts.accept(host)) && hosts.next().is_none()
    }

    /// Answers a viewer that shows this, once there is something new, or at the end.
    async fn lead_on(
        &self,
        shown: Shown,
        until: Until,
        cached: &'static str,
        busy: Busy,
    ) -> Response<Body> {
        busy.follow();
        match self.hub.next(shown).await {
            Some(answer) => self.send_chain(answer, until, cached, busy),
            None => self.say_end(),
        }
    }

    fn send_chain(
        &self,
        first: Answer,
        until: Until,
        cached: &'static str,
        busy: Busy,
    ) -> Response<Body> {
        let body = match until {
            Until::First => first.bytes.into(), // whose length is sent
            _ => Body::wrap_stream(chain(Arc::clone(&self.hub), first, until, busy)),
        };
        let mut response = respond_to_all(StatusCode::OK, cached, body);
        let headers = response.headers_mut();
        headers.insert(header::CONTENT_TYPE, HeaderValue::from_static(SEQUENCE));
        response
    }

    fn say_end(&self) -> Response<Body> {
        let mut response = refuse(StatusCode::GONE, SHORTLY, ENDED);
        if let Some(status) = self.hub.ended().and_then(|end| end.status) {
            let headers = response.headers_mut();
            headers.insert(EXIT_STATUS, HeaderValue::from(u16::from(status)));
        }
        response
    }
}

#[cfg(test)]
mod tests;
