//! Reads that have to agree. A disk may return bytes of another place, and then what was kept last looks as if it had
//! never been written.

use std::io::{self, ErrorKind};

/// The most reads.
const MOST: usize = 5;

/// What two reads one after the other return. An error if they never agree.
pub fn settled<T: PartialEq, E: From<io::Error>>(mut read: impl FnMut() -> Result<T, E>) -> Result<T, E> {
    let mut last = read()?;
    for _ in 1..MOST {
        let next = read()?;
        if next == last {
            return Ok(next);
        }
        last = next;
    }
    Err(io::Error::new(ErrorKind::InvalidData, "it is read as something else each time").into())
}

#[cfg(test)]
mod tests {
    use super::*;

    fn read(values: &[u8]) -> Result<u8, String> {
        let mut rest = values.iter();
        let next = || rest.next().copied().ok_or_else(|| io::Error::from(ErrorKind::UnexpectedEof));
        settled(next).map_err(|error| error.to_string())
    }

    #[test]
    fn two_reads_agree() {
        assert_eq!((read(&[7, 7]), read(&[1, 7, 7]), read(&[7, 1, 7, 7])), (Ok(7), Ok(7), Ok(7)));
        assert!(read(&[7]).is_err());
        assert_eq!(read(&[1, 2, 1, 2, 1, 1]), Err("it is read as something else each time".to_owned()));
    }
}
