//! Reading a file to its end.

use std::ffi::OsStr;
use std::fs::File;
use std::io::{self, Read};
use std::os::unix::ffi::OsStrExt;

/// One byte more than a text may have; what comes behind is not kept.
const KEPT: usize = 65_536;
/// Where reading stops, since a device may have no end.
const MOST: u64 = 16 << 20;

/// What was read.
pub struct Text {
    pub bytes: Vec<u8>,
    /// How many bytes were read.
    pub length: u64,
    /// Whether the end was reached.
    pub whole: bool,
}

/// The file of this name, or standard input for `-`.
///
/// # Errors
///
/// What the system says when the file can't be opened or a read fails, however
/// much was read before.
pub fn read(file: &[u8]) -> io::Result<Text> {
    match file {
        b"-" => read_all(io::stdin().lock()),
        _ => read_all(File::open(OsStr::from_bytes(file))?),
    }
}

fn read_all(mut from: impl Read) -> io::Result<Text> {
    let mut bytes = Vec::new();
    let mut buffer = [0; 8192];
    let mut length = 0;
    let mut whole = false;
    while !whole && length < MOST {
        let count = match from.read(&mut buffer) {
            Err(error) if error.kind() == io::ErrorKind::Interrupted => continue,
            count => count?,
        };
        whole = count == 0;
        length += count as u64;
        let room = KEPT - bytes.len();
        bytes.extend(&buffer[..count.min(room)]);
    }
    Ok(Text {
        bytes,
        length,
        whole,
    })
}

#[cfg(test)]
mod tests {
    use super::*;

    /// Gives these reads one after the other.
    struct Reads(Vec<io::Result<Vec<u8>>>);

    impl Read for Reads {
        fn read(&mut self, buffer: &mut [u8]) -> io::Result<usize> {
            if self.0.is_empty() {
                return Ok(0);
            }
            let bytes = self.0.remove(0)?;
            buffer[..bytes.len()].copy_from_slice(&bytes);
            Ok(bytes.len())
        }
    }

    #[test]
    fn short_reads_are_put_together() {
        let interrupted = Err(io::ErrorKind::Interrupted.into());
        let reads = Reads(vec![Ok(b"ab".to_vec()), interrupted, Ok(b"c".to_vec())]);
        let text = read_all(reads).unwrap();
        assert_eq!((text.bytes, text.length), (b"abc".to_vec(), 3));
        assert!(text.whole);
    }

    #[test]
    fn a_failed_read_is_an_error_however_late() {
        let failed = || Err(io::ErrorKind::Other.into());
        assert!(read_all(Reads(vec![Ok(b"ab".to_vec()), failed()])).is_err());
        let mut reads: Vec<_> = (0..20).map(|_| Ok(vec![b'a'; 8192])).collect();
        reads.push(failed());
        assert!(read_all(Reads(reads)).is_err());
    }

    #[test]
    fn what_no_text_can_have_is_counted_only() {
        let text = read_all(io::repeat(b'a').take(100_000)).unwrap();
        assert_eq!((text.bytes.len(), text.length), (65_536, 100_000));
        assert!(text.whole);
        let text = read_all(io::repeat(b'a')).unwrap();
        assert_eq!((text.bytes.len(), text.length), (65_536, MOST));
        assert!(!text.whole);
    }
}
