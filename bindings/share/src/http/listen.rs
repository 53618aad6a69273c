//! Connections, and the requests that come over them.

use super::{Connections, Site};
use crate::http::connections::Place;
use futures_util::future::select;
use hyper::server::conn::Http;
use hyper::service::service_fn;
use nix::sys::socket::{setsockopt, sockopt};
use std::convert::Infallible;
use std::io;
use std::net::SocketAddr;
use std::os::fd::AsRawFd;
use std::pin::pin;
use std::sync::Arc;
use std::time::{Duration, Instant};
use tokio::net::{TcpListener, TcpSocket, TcpStream};
use tokio::time;

const LONGEST_HEAD: usize = 8192; // bytes; and this many wait to be sent
const WAITING: u32 = 4096; // connections that aren't taken yet
const PATIENCE: u32 = 60_000; // milliseconds in which a viewer has to take bytes
const SWEEP: Duration = Duration::from_secs(1);
const PAUSE: Duration = Duration::from_millis(50); // where no connection can be taken

/// Listens to an address, in the context of a runtime.
pub fn bind(address: SocketAddr) -> io::Result<TcpListener> {
    let socket = match address {
        SocketAddr::V4(_) => TcpSocket::new_v4()?,
        SocketAddr::V6(_) => TcpSocket::new_v6()?,
    };
    socket.set_reuseaddr(true)?; // a restart has the same address
    socket.bind(address)?;
    socket.listen(WAITING)
}

/// Answers whoever connects, for as long as it is polled.
pub async fn serve(listener: TcpListener, site: Arc<Site>, connections: Arc<Connections>) {
    tokio::spawn(sweep(Arc::clone(&connections)));
    loop {
        let Ok((stream, _)) = listener.accept().await else {
            time::sleep(PAUSE).await;
            continue;
        };
        if let Some(place) = connections.enter(Instant::now()) {
            tokio::spawn(talk(stream, Arc::clone(&site), place));
        }
    }
}

async fn sweep(connections: Arc<Connections>) {
    let mut clock = time::interval(SWEEP);
    loop {
        connections.sweep(clock.tick().await.into_std());
    }
}

/// Answers one request after another. A connection that is lost is its viewer's matter.
async fn talk(stream: TcpStream, site: Arc<Site>, place: Arc<Place>) {
    let prepared = stream.set_nodelay(true).is_ok()
        && setsockopt(stream.as_raw_fd(), sockopt::TcpUserTimeout, &PATIENCE).is_ok();
    if !prepared {
        return;
    }
    let own = Arc::clone(&place);
    let service = service_fn(move |request| {
        let (site, place) = (Arc::clone(&site), Arc::clone(&own));
        async move { Ok::<_, Infallible>(site.respond(&place, &request).await) }
    });
    let mut http = Http::new();
    http.http1_only(true).max_buf_size(LONGEST_HEAD);
    let connection = pin!(http.serve_connection(stream, service));
    select(connection, pin!(place.closed())).await;
}
