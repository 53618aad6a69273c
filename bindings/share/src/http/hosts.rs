//! By which names the server may be asked. A page of another name, which a name server points at
//! this machine, can so read nothing.

use hyper::http::uri::{Authority, InvalidUri, Scheme};
use hyper::Uri;
use std::fmt;
use std::net::{IpAddr, SocketAddr};
use std::str::FromStr;

/// The address that viewers use where a proxy stands before the server.
#[derive(Clone, Debug)]
pub struct Url {
    text: String, // with no slash at its end
    authority: Authority,
}

impl FromStr for Url {
    type Err = String;

    fn from_str(text: &str) -> Result<Url, String> {
        let uri: Uri = text
            .parse()
            .map_err(|error: InvalidUri| error.to_string())?;
        let has_scheme = [Some(&Scheme::HTTP), Some(&Scheme::HTTPS)].contains(&uri.scheme());
        match uri.authority() {
            Some(authority) if has_scheme && !text.contains(['?', '#']) => Ok(Url {
                text: text.trim_end_matches('/').into(),
                authority: authority.clone(),
            }),
            _ => Err("an address begins with http:// or https:// and has no query".into()),
        }
    }
}

impl fmt::Display for Url {
    fn fmt(&self, f: &mut fmt::Formatter<'_>) -> fmt::Result {
        f.write_str(&self.text)
    }
}

/// The hosts that a request may name.
pub struct Hosts {
    listened: SocketAddr,
    outer: Option<Authority>,
}

impl Hosts {
    /// Those of the address that is listened to, and of the one that viewers use.
    pub fn new(listened: SocketAddr, url: Option<&Url>) -> Hosts {
        let outer = url.map(|url| url.authority.clone());
        Hosts { listened, outer }
    }

    /// Whether the field `host` of a request is one of them.
    pub fn accept(&self, host: &str) -> bool {
        let Ok(authority) = host.parse::<Authority>() else {
            return false;
        };
        self.outer.as_ref() == Some(&authority) || self.is_listened(&authority)
    }

    /// An address of this machine as a number names nothing that could be pointed elsewhere.
    fn is_listened(&self, authority: &Authority) -> bool {
        let own = self.listened.ip();
        let host = authority
            .host()
            .trim_start_matches('[')
            .trim_end_matches(']');
        let is_own = match host.parse::<IpAddr>() {
            Ok(address) => own.is_unspecified() || address == own,
            Err(_) => {
                let is_local = own.is_loopback() || own.is_unspecified();
                is_local && host.eq_ignore_ascii_case("localhost")
            }
        };
        is_own && authority.port_u16().unwrap_or(80) == self.listened.port()
    }
}

#[cfg(test)]
mod tests {
    use super::*;

    fn judge(listened: &str, url: Option<&str>, host: &str) -> bool {
        let url = url.map(|url| url.parse().unwrap());
        Hosts::new(listened.parse().unwrap(), url.as_ref()).accept(host)
    }

    #[test]
    fn what_is_listened_to_is_accepted() {
        for (listened, host) in [
            ("127.0.0.1:8000", "127.0.0.1:8000"),
            ("127.0.0.1:8000", "LocalHost:8000"),
            ("127.0.0.1:80", "127.0.0.1"),
            ("192.0.2.1:8000", "192.0.2.1:8000"),
            ("0.0.0.0:8000", "192.0.2.1:8000"),
            ("0.0.0.0:8000", "localhost:8000"),
            ("[::1]:8000", "[::1]:8000"),
            ("[::]:8000", "[2001:db8::1]:8000"),
        ] {
            assert!(judge(listened, None, host), "{host} of {listened}");
        }
    }

    #[test]
    fn other_names_are_refused() {
        for (listened, host) in [
            ("127.0.0.1:8000", "example.org:8000"),
            ("127.0.0.1:8000", "example.org"),
            ("127.0.0.1:8000", "127.0.0.1"),
            ("127.0.0.1:8000", "127.0.0.1:8001"),
            ("127.0.0.1:8000", "127.0.0.2:8000"),
            ("127.0.0.1:8000", "127.0.0.1.example.org:8000"),
            ("0.0.0.0:8000", "example.org:8000"),
            ("192.0.2.1:8000", "localhost:8000"),
            ("127.0.0.1:8000", ""),
            ("127.0.0.1:8000", "127.0.0.1:8000/"),
        ] {
            assert!(!judge(listened, None, host), "{host} of {listened}");
        }
    }

    #[test]
    fn the_outer_address_is_accepted() {
        let url = Some("https://Example.org/screens/");
        assert!(judge("127.0.0.1:8000", url, "example.org"));
        assert!(judge("127.0.0.1:8000", url, "127.0.0.1:8000"));
        assert!(!judge("127.0.0.1:8000", url, "example.org:8000"));
        assert!(judge(
            "127.0.0.1:8000",
            Some("http://a.example:81"),
            "a.example:81"
        ));
    }

    #[test]
    fn an_outer_address_is_one_of_http() {
        let url: Url = "https://example.org/screens/".parse().unwrap();
        assert_eq!(url.to_string(), "https://example.org/screens");
        for wrong in [
            "",
            "example.org",
            "/path",
            "ftp://a.example",
            "http://a.example/?a",
            "http:///",
        ] {
            assert!(wrong.parse::<Url>().is_err(), "{wrong}");
        }
    }
}
