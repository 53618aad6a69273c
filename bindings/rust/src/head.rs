//! Heads of CBOR's items: the major type, and a number in as few bytes as it takes.

use crate::error::Error;

pub(crate) const UNSIGNED: u8 = 0;
pub(crate) const BYTES: u8 = 2;
pub(crate) const ARRAY: u8 = 4;

/// Appends the head of an item of this major type.
pub(crate) fn put(out: &mut Vec<u8>, major: u8, value: u64) {
    let (short, count) = match value {
        0..=23 => (value as u8, 0),
        24..=0xff => (24, 1),
        0x100..=0xffff => (25, 2),
        0x1_0000..=0xffff_ffff => (26, 4),
        _ => (27, 8),
    };
    out.push(major << 5 | short);
    out.extend_from_slice(&value.to_be_bytes()[8 - count..]);
}

/// Takes the head of an item of this major type off the front of the bytes, and returns its number.
/// It fails with [`Error::Truncated`] where the bytes end before the head does, and with
/// [`Error::Unreadable`] where it is of another type, or isn't the shortest.
pub(crate) fn take(bytes: &mut &[u8], major: u8) -> Result<u64, Error> {
    let (&first, rest) = bytes.split_first().ok_or(Error::Truncated)?;
    let short = first & 0x1f;
    if first >> 5 != major || short > 27 {
        return Err(Error::Unreadable);
    }
    let count = if short < 24 { 0 } else { 1 << (short - 24) };
    if rest.len() < count {
        return Err(Error::Truncated);
    }
    let (long, rest) = rest.split_at(count);
    let value = match count {
        0 => u64::from(short),
        _ => long.iter().fold(0, |sum, byte| sum << 8 | u64::from(*byte)),
    };
    let mut shortest = Vec::new();
    put(&mut shortest, major, value);
    if shortest.len() != 1 + count {
        return Err(Error::Unreadable);
    }
    *bytes = rest;
    Ok(value)
}

#[cfg(test)]
mod tests {
    use super::*;

    // RFC 8949, appendix A.
    const EXAMPLES: [(u8, u64, &[u8]); 6] = [
        (UNSIGNED, 23, &[0x17]),
        (UNSIGNED, 24, &[0x18, 24]),
        (UNSIGNED, 1000, &[0x19, 3, 0xe8]),
        (UNSIGNED, 1_000_000, &[0x1a, 0, 0x0f, 0x42, 0x40]),
        (
            UNSIGNED,
            u64::MAX,
            &[0x1b, 255, 255, 255, 255, 255, 255, 255, 255],
        ),
        (ARRAY, 25, &[0x98, 25]),
    ];

    #[test]
    fn heads_are_the_shortest() {
        for (major, value, bytes) in EXAMPLES {
            let mut out = Vec::new();
            put(&mut out, major, value);
            assert_eq!(out, bytes);
        }
    }

    #[test]
    fn heads_are_taken_from_the_front() {
        for (major, value, bytes) in EXAMPLES {
            let longer = [bytes, &[7, 8]].concat();
            let mut rest = &longer[..];
            assert_eq!(take(&mut rest, major), Ok(value));
            assert_eq!(rest, [7, 8]);
            for end in 0..bytes.len() {
                assert_eq!(take(&mut &bytes[..end], major), Err(Error::Truncated));
            }
        }
    }

    #[test]
    fn other_heads_are_refused() {
        let longer: [&[u8]; 4] = [
            &[0x18, 23],
            &[0x19, 0, 255],
            &[0x1a, 0, 0, 255, 255],
            &[0x1b, 0, 0, 0, 0, 255, 255, 255, 255],
        ];
        // A negative number, a text, reserved numbers, and an indefinite length.
        let others: [&[u8]; 5] = [&[0x20], &[0x61, 0x61], &[0x1c], &[0x1e], &[0x1f]];
        for bytes in longer.into_iter().chain(others) {
            assert_eq!(take(&mut &*bytes, UNSIGNED), Err(Error::Unreadable));
        }
    }
}
