//! A handle of the library's, and the ways in which its calls return values.

use crate::error::Error;
use crate::ffi::{self, tk_handle};
use std::cell::UnsafeCell;
use std::ptr;

/// A handle on a surface, a viewer, a client or lines, which is freed at its end.
///
/// Calls that read write the handle too, so that it lies in a cell. One call at a time has it: no
/// call runs code of a caller's, and the pointer and the cell keep the handle from being used by two
/// threads at once, since it isn't `Sync`.
pub(crate) struct Handle(UnsafeCell<tk_handle>);

// Safety: while no call runs, all that a handle's pointer leads to, links and the counts of those
// that share them included, is reached from this handle alone. A call that takes two handles is
// given both by references, so that both are on its thread, and leaves in one only copies of the
// other's links. The library has no static that is written, and nothing of a thread's own. Its
// memory is that of `malloc`, which any thread may free. A table of widths is `'static`, and is
// never written. The proofs speak of one thread: what moves a handle to another orders the calls.
unsafe impl Send for Handle {}

impl tk_handle {
    /// A handle on nothing.
    #[inline]
    pub(crate) fn none() -> tk_handle {
        tk_handle {
            at: ptr::null_mut(),
            is_live: false,
        }
    }
}

impl Handle {
    /// A handle on what this call makes in it.
    pub(crate) fn made(make: impl FnOnce(*mut tk_handle) -> i32) -> Result<Handle, Error> {
        let handle = Handle(UnsafeCell::new(tk_handle::none()));
        Error::check(make(handle.get()))?;
        Ok(handle)
    }

    pub(crate) fn get(&self) -> *mut tk_handle {
        self.0.get()
    }

    /// The number that this call writes.
    pub(crate) fn number(
        &self,
        read: unsafe extern "C" fn(*mut tk_handle, *mut usize) -> i32,
    ) -> Result<usize, Error> {
        let mut number = 0;
        // Safety: the handle is live, and the call writes the number alone.
        Error::check(unsafe { read(self.get(), &mut number) })?;
        Ok(number)
    }

    /// The two numbers that this call writes.
    pub(crate) fn numbers(
        &self,
        read: unsafe extern "C" fn(*mut tk_handle, *mut usize, *mut usize) -> i32,
    ) -> Result<(usize, usize), Error> {
        let (mut first, mut second) = (0, 0);
        // Safety: the handle is live, and the call writes the two numbers alone.
        Error::check(unsafe { read(self.get(), &mut first, &mut second) })?;
        Ok((first, second))
    }
}

impl Drop for Handle {
    fn drop(&mut self) {
        // Safety: the handle is freed here alone, and no call comes after it.
        unsafe { ffi::tk_free_handle(self.get()) }
    }
}

/// The bytes that a call writes: to this front where they fit, and else to as much room as the call
/// says that they need, which another call may say anew. The call is passed a buffer, its room, and
/// where it writes their length.
pub(crate) fn bytes(
    front: &mut [u8],
    mut write: impl FnMut(*mut u8, usize, *mut usize) -> i32,
) -> Result<Vec<u8>, Error> {
    let mut len = 0;
    let mut status = write(front.as_mut_ptr(), front.len(), &mut len);
    if status != ffi::SHORT {
        Error::check(status)?;
        return Ok(front[..len].to_vec());
    }
    let mut bytes = Vec::new();
    while status == ffi::SHORT {
        bytes.resize(len, 0);
        status = write(bytes.as_mut_ptr(), bytes.len(), &mut len);
    }
    Error::check(status)?;
    bytes.truncate(len);
    Ok(bytes)
}

/// The text that a call writes, as `bytes` has it.
pub(crate) fn text(write: impl FnMut(*mut u8, usize, *mut usize) -> i32) -> Result<String, Error> {
    let bytes = bytes(&mut [0; 128], write)?;
    String::from_utf8(bytes).map_err(|_| Error::Unreadable)
}

/// A call that writes a param of a link, until it has no more: it is passed the param's index, and
/// for its key and its value a buffer, its room, and where it writes their length.
pub(crate) trait WriteParam:
    FnMut(usize, *mut u8, usize, *mut usize, *mut u8, usize, *mut usize) -> i32
{
}

impl<F> WriteParam for F where
    F: FnMut(usize, *mut u8, usize, *mut usize, *mut u8, usize, *mut usize) -> i32
{
}

/// Makes the call for the param at this index. Returns its status, and the lengths of the key and
/// of the value.
fn write_param(
    write: &mut impl WriteParam,
    index: usize,
    key: &mut [u8],
    value: &mut [u8],
) -> (i32, usize, usize) {
    let (mut key_len, mut value_len) = (0, 0);
    let status = write(
        index,
        key.as_mut_ptr(),
        key.len(),
        &mut key_len,
        value.as_mut_ptr(),
        value.len(),
        &mut value_len,
    );
    (status, key_len, value_len)
}

/// The params that this call writes.
pub(crate) fn params(mut write: impl WriteParam) -> Result<Vec<(String, String)>, Error> {
    let mut params = Vec::new();
    let (mut key, mut value) = (vec![0; 32], vec![0; 128]);
    loop {
        let (status, key_len, value_len) =
            write_param(&mut write, params.len(), &mut key, &mut value);
        match status {
            ffi::RANGE => return Ok(params),
            ffi::SHORT => {
                key.resize(key_len.max(key.len()), 0);
                value.resize(value_len.max(value.len()), 0);
            }
            status => {
                Error::check(status)?;
                params.push((read(&key[..key_len])?, read(&value[..value_len])?));
            }
        }
    }
}

/// The value of the param `id` among those that this call writes, or an empty text. A link mostly
/// has no other param, and then the call is made once.
pub(crate) fn id(mut write: impl WriteParam) -> Result<String, Error> {
    let (mut key, mut value) = ([0; 2], [0; 128]);
    let (status, key_len, value_len) = write_param(&mut write, 0, &mut key, &mut value);
    if status == ffi::RANGE {
        return Ok(String::new());
    }
    if status != ffi::SHORT {
        Error::check(status)?;
        if key[..key_len] == *b"id" {
            return read(&value[..value_len]);
        }
    }
    let params = params(write)?.into_iter();
    let mut ids = params.filter(|(key, _)| key == "id");
    Ok(ids.next().map_or_else(String::new, |(_, value)| value))
}

/// The text that these bytes are.
fn read(bytes: &[u8]) -> Result<String, Error> {
    String::from_utf8(bytes.to_vec()).map_err(|_| Error::Unreadable)
}
