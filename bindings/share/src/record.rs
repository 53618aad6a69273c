//! The file that a recording goes to.

use std::fs::{self, File, OpenOptions, Permissions};
use std::io::{self, ErrorKind};
use std::os::unix::fs::{OpenOptionsExt, PermissionsExt};
use std::path::{Path, PathBuf};

/// A file that can be written, and isn't yet: what it had is there until [`Place::begin`].
pub struct Place {
    path: PathBuf,
    file: File,
    is_new: bool,
}

impl Place {
    /// Opens the file, which is made where there is none. From now on its owner alone may read it.
    pub fn open(path: &Path) -> io::Result<Place> {
        let mut options = OpenOptions::new();
        options.write(true).mode(0o600);
        let made = options.clone().create_new(true).open(path);
        let is_new = made.is_ok();
        let file = match made {
            Err(error) if error.kind() == ErrorKind::AlreadyExists => options.open(path)?,
            made => made?,
        };
        if file.metadata()?.is_file() {
            file.set_permissions(Permissions::from_mode(0o600))?;
        }
        let path = path.into();
        Ok(Place { path, file, is_new })
    }

    /// Empties the file.
    pub fn begin(self) -> io::Result<File> {
        if self.file.metadata()?.is_file() {
            self.file.set_len(0)?;
        }
        Ok(self.file)
    }

    /// There is nothing to record: a file that was made goes.
    pub fn leave(self) {
        if self.is_new {
            let _ = fs::remove_file(self.path); // an empty one may stay
        }
    }
}

#[cfg(test)]
mod tests {
    use super::*;
    use std::io::Write;

    #[test]
    fn what_was_there_goes_once_the_recording_begins() {
        let path = std::env::temp_dir().join(format!("share-record-{}", std::process::id()));
        fs::write(&path, "old, and longer").unwrap();
        Place::open(&path).unwrap().leave();
        assert_eq!(fs::read_to_string(&path).unwrap(), "old, and longer");
        let mut file = Place::open(&path).unwrap().begin().unwrap();
        file.write_all(b"new").unwrap();
        assert_eq!(fs::read_to_string(&path).unwrap(), "new");
        let mode = fs::metadata(&path).unwrap().permissions().mode();
        assert_eq!(mode & 0o777, 0o600);
        fs::remove_file(&path).unwrap();
        Place::open(&path).unwrap().leave();
        assert!(!path.exists());
        assert!(Place::open(&path.join("none")).is_err());
    }
}
