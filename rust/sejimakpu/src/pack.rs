//! Packing captures into a bundle.
use crate::MAX_CAPTURES;
use std::{error, fmt};

/// Packs captures into a bundle for [`judge_bundle`](crate::judge_bundle): their count, their pairs of offset and length,
/// and then their bytes, one capture right behind the other.
///
/// A capture may have any length here. One of over [`MAX_CAPTURE`](crate::MAX_CAPTURE) bytes gets a line that refuses it.
///
/// ```
/// use sejimakpu::PackError;
/// let bundle = sejimakpu::pack_bundle(&["ring", "", "ok"])?;
/// assert_eq!(bundle[..4], [3, 0, 0, 0]);
/// // The second of three captures: empty, at 4 + 3 · 8 + 4.
/// assert_eq!(bundle[12..20], [32, 0, 0, 0, 0, 0, 0, 0]);
/// assert_eq!(bundle[28..], *b"ringok");
///
/// assert_eq!(sejimakpu::pack_bundle(&[""; 65]), Err(PackError::Count(65)));
/// # Ok::<(), PackError>(())
/// ```
///
/// # Errors
///
/// [`PackError::Count`] for none and for over [`MAX_CAPTURES`], and [`PackError::Size`] where a number does not fit.
pub fn pack_bundle<C: AsRef<[u8]>>(captures: &[C]) -> Result<Vec<u8>, PackError> {
    if !(1..=MAX_CAPTURES).contains(&captures.len()) {
        return Err(PackError::Count(captures.len()));
    }
    let captures: Vec<&[u8]> = captures.iter().map(AsRef::as_ref).collect();
    let lengths: Vec<u64> = captures.iter().map(|capture| capture.len() as u64).collect();
    let pairs = pairs(&lengths)?;
    let count = captures.len() as u32;
    let mut bundle: Vec<u8> =
        [count].iter().chain(pairs.as_flattened()).flat_map(|number| number.to_le_bytes()).collect();
    bundle.reserve_exact(captures.iter().map(|capture| capture.len()).sum());
    captures.iter().for_each(|capture| bundle.extend_from_slice(capture));
    Ok(bundle)
}

/// Offsets and lengths of captures that follow one another behind their pairs. A capture may end past what 32 bits reach.
fn pairs(lengths: &[u64]) -> Result<Vec<[u32; 2]>, PackError> {
    let mut offset = 4 + 8 * lengths.len() as u64;
    let mut pairs = Vec::with_capacity(lengths.len());
    for (capture, &length) in lengths.iter().enumerate() {
        let (Ok(first), Ok(second)) = (u32::try_from(offset), u32::try_from(length)) else {
            return Err(PackError::Size(capture));
        };
        pairs.push([first, second]);
        offset += length;
    }
    Ok(pairs)
}

/// Why captures make no bundle.
#[non_exhaustive]
#[derive(Clone, Copy, Debug, PartialEq, Eq, Hash)]
pub enum PackError {
    /// There is no capture, or there are over 64: so many.
    Count(usize),
    /// The offset or the length of a capture does not fit 32 bits: of the first such one, counted from 0.
    Size(usize),
}

impl fmt::Display for PackError {
    fn fmt(&self, f: &mut fmt::Formatter<'_>) -> fmt::Result {
        match self {
            PackError::Count(count) => write!(f, "a bundle has 1 to {MAX_CAPTURES} captures, not {count}"),
            PackError::Size(capture) => write!(f, "the offset or the length of capture {capture} passes 32 bits"),
        }
    }
}

impl error::Error for PackError {}

#[cfg(test)]
mod tests {
    use super::*;

    const MOST: u64 = u32::MAX as u64;

    #[test]
    fn counts_at_both_ends() {
        assert_eq!(pack_bundle::<&[u8]>(&[]), Err(PackError::Count(0)));
        assert_eq!(pack_bundle(&[b"a"]).unwrap(), [1, 0, 0, 0, 12, 0, 0, 0, 1, 0, 0, 0, b'a']);
        let bundle = pack_bundle(&[b"ab"; 64]).unwrap();
        assert_eq!((bundle.len(), &bundle[..4]), (4 + 64 * (8 + 2), &[64, 0, 0, 0][..]));
        // The last pair: 516 and 63 captures of 2 bytes, and 2.
        assert_eq!(bundle[4 + 63 * 8..][..8], [0x82, 2, 0, 0, 2, 0, 0, 0]);
        assert_eq!(pack_bundle(&[b"ab"; 65]), Err(PackError::Count(65)));
        assert_eq!(PackError::Count(0).to_string(), "a bundle has 1 to 64 captures, not 0");
    }

    #[test]
    fn numbers_at_both_ends() {
        assert_eq!(pairs(&[MOST]), Ok(vec![[12, u32::MAX]]));
        assert_eq!(pairs(&[MOST + 1]), Err(PackError::Size(0)));
        // The second offset is 20 and the first length.
        assert_eq!(pairs(&[MOST - 20, 5]), Ok(vec![[20, u32::MAX - 20], [u32::MAX, 5]]));
        assert_eq!(pairs(&[MOST - 19, 0]), Err(PackError::Size(1)));
        assert_eq!(pairs(&[MOST - 20, MOST + 1]), Err(PackError::Size(1)));
        assert_eq!(PackError::Size(1).to_string(), "the offset or the length of capture 1 passes 32 bits");
    }

    /// One slice lent 64 times over: its bytes are never copied.
    #[test]
    fn captures_past_32_bits_are_not_packed() {
        let capture = vec![0; 70_000_000];
        assert_eq!(pack_bundle(&[&capture[..]; 64]), Err(PackError::Size(62)));
    }
}
