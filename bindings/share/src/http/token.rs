//! The secret part of the address: whoever has it sees the terminal.

use std::fmt;
use std::fs::{self, File, OpenOptions};
use std::hint::black_box;
use std::io::{self, ErrorKind, Read, Write};
use std::os::unix::fs::OpenOptionsExt;
use std::path::Path;

const DIGITS: usize = 32;

/// 128 random bits, which are written as 32 hexadecimal digits.
pub struct Token(u128);

impl Token {
    /// A new one.
    pub fn random() -> io::Result<Token> {
        let mut random = [0; 16];
        File::open("/dev/urandom")?.read_exact(&mut random)?;
        Ok(Token(u128::from_ne_bytes(random)))
    }

    /// The one that a file has. Where there is no such file, it is made, for its owner alone.
    pub fn kept_in(path: &Path) -> io::Result<Token> {
        match fs::read_to_string(path) {
            Ok(text) => Token::read(text.trim_end()).ok_or_else(|| {
                let text = "this is no token, which has 32 hexadecimal digits";
                io::Error::new(ErrorKind::InvalidData, text)
            }),
            Err(error) if error.kind() == ErrorKind::NotFound => {
                let token = Token::random()?;
                let mut options = OpenOptions::new();
                let mut file = options
                    .write(true)
                    .create_new(true)
                    .mode(0o600)
                    .open(path)?;
                writeln!(file, "{token}")?;
                Ok(token)
            }
            Err(error) => Err(error),
        }
    }

    fn read(text: &str) -> Option<Token> {
        let is_digit = |byte: u8| matches!(byte, b'0'..=b'9' | b'a'..=b'f');
        let is_token = text.len() == DIGITS && text.bytes().all(is_digit);
        let value = is_token.then(|| u128::from_str_radix(text, 16));
        value?.ok().map(Token)
    }

    /// Whether a text is this one, compared in a time that doesn't say where they differ.
    pub fn is(&self, text: &str) -> bool {
        let other = Token::read(text).map_or(!self.0, |other| other.0);
        black_box(other ^ self.0) == 0
    }
}

impl fmt::Display for Token {
    fn fmt(&self, f: &mut fmt::Formatter<'_>) -> fmt::Result {
        write!(f, "{:032x}", self.0)
    }
}

#[cfg(test)]
mod tests {
    use super::*;
    use std::os::unix::fs::PermissionsExt;

    #[test]
    fn a_token_has_one_spelling() {
        let token = Token(0xab);
        let text = "000000000000000000000000000000ab";
        assert_eq!(token.to_string(), text);
        assert!(token.is(text));
        for other in [
            "",
            "ab",
            "+00000000000000000000000000000ab",
            &text.to_uppercase(),
        ] {
            assert!(!token.is(other), "{other}");
        }
        assert!(!token.is(&format!("0{text}")));
        assert!(!token.is(&text.replace('b', "c")));
    }

    #[test]
    fn a_file_keeps_the_token() {
        let folder = std::env::temp_dir().join(format!("share-token-{}", std::process::id()));
        fs::create_dir(&folder).unwrap();
        let path = folder.join("token");
        let made = Token::kept_in(&path).unwrap();
        assert_eq!(Token::kept_in(&path).unwrap().0, made.0);
        let mode = fs::metadata(&path).unwrap().permissions().mode();
        assert_eq!(mode & 0o777, 0o600);
        fs::write(&path, "secret\n").unwrap();
        let refused = Token::kept_in(&path).err().unwrap();
        assert_eq!(refused.kind(), ErrorKind::InvalidData);
        assert_eq!(fs::read_to_string(&path).unwrap(), "secret\n");
        assert!(Token::kept_in(&folder.join("none/token")).is_err());
        fs::remove_dir_all(&folder).unwrap();
    }
}
