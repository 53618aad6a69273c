//! The words of the command.

use crate::http::Url;
use clap::Parser;
use std::ffi::OsString;
use std::net::{Ipv4Addr, SocketAddr};
use std::path::PathBuf;

/// Runs a program in a terminal, and shows that in any number of browsers, live and read only. Who
/// has the address that is printed sees the terminal, and nobody types there.
#[derive(Parser, Debug)]
#[command(name = "share", version)]
pub struct Options {
    /// Listens on this address; the port 0 is a free one [default: 127.0.0.1:0]
    #[arg(long, value_name = "ADDR:PORT", conflicts_with = "port")]
    listen: Option<SocketAddr>,

    /// Listens on this port of 127.0.0.1
    #[arg(long, value_name = "N")]
    port: Option<u16>,

    /// Takes the secret part of the address from this file, which is made where there is none: so a
    /// restart keeps the address
    #[arg(long, value_name = "FILE")]
    pub token: Option<PathBuf>,

    /// Prints the address below this URL, where a proxy stands before the server
    #[arg(long, value_name = "URL")]
    pub url: Option<Url>,

    /// Starts the program at once, rather than when Enter is pressed
    #[arg(long)]
    pub no_wait: bool,

    /// Records what is shown, for `node bindings/js/serve.mjs FILE` to play
    #[arg(long, value_name = "FILE")]
    pub record: Option<PathBuf>,

    /// The program, and its words
    #[arg(required = true, trailing_var_arg = true, value_name = "PROGRAM")]
    pub command: Vec<OsString>,
}

impl Options {
    /// What to listen to, and the option that says so.
    pub fn listen(&self) -> (SocketAddr, &'static str) {
        let port = self.port.unwrap_or(0);
        let local = SocketAddr::from((Ipv4Addr::LOCALHOST, port));
        match self.listen {
            Some(address) => (address, "--listen"),
            None => (local, "--port"),
        }
    }
}

#[cfg(test)]
mod tests {
    use super::*;

    fn read(line: &str) -> Result<Options, clap::Error> {
        Options::try_parse_from(line.split(' '))
    }

    #[test]
    fn what_follows_the_program_is_its_own() {
        for line in ["share -- htop -d 5 --port 7", "share htop -d 5 --port 7"] {
            let options = read(line).unwrap();
            assert_eq!(options.command, ["htop", "-d", "5", "--port", "7"]);
            assert_eq!(options.listen().0.to_string(), "127.0.0.1:0");
        }
        let options = read("share --port 7 -- -odd").unwrap();
        assert_eq!(options.command, ["-odd"]);
        assert_eq!(options.listen().0.to_string(), "127.0.0.1:7");
        let options = read("share --listen [::1]:7 top").unwrap();
        assert_eq!(options.listen().0.to_string(), "[::1]:7");
    }

    #[test]
    fn an_error_names_the_option() {
        for (line, named) in [
            ("share", "PROGRAM"),
            ("share --port", "--port"),
            ("share --port x top", "--port"),
            ("share --port 65536 top", "--port"),
            ("share --listen 8000 top", "--listen"),
            ("share --port 1 --listen 127.0.0.1:1 top", "--port"),
            ("share --prot 1 top", "--prot"),
            ("share --url example.org top", "--url"),
        ] {
            let text = read(line).unwrap_err().to_string();
            assert!(text.contains(named), "{line}: {text}");
        }
    }
}
