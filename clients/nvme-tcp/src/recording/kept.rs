//! The two files of a kept script: its lines, and their results. Aligned writes are faster: the system caches many
//! pages at once if bytes begin and end at multiples of them. So lines are written up to such a position, and the rest
//! with the beginning of the next lines, if these are there by then.

use crate::numbers::{to_u64, to_usize};
use crate::recording::appended::Appended;
use crate::recording::run::Synced;
use std::fs::File;
use std::io;

/// The multiples at which bytes begin and end well.
const WELL: u64 = 64 << 10;
/// Results are written once there are this many bytes, even if more lines wait.
const GAVE: usize = 32 << 10;

/// A script and its transcript.
pub struct Kept {
    script: Appended,
    transcript: Appended,
    /// How many bytes of the next lines were written with others.
    ahead: usize,
    /// Results of written lines that are not in the transcript yet.
    gave: Vec<u8>,
}

impl Kept {
    /// Begins both files, which are empty: the script with these lines, and the transcript.
    pub fn new([script, transcript]: [File; 2], lines: &[u8]) -> io::Result<Kept> {
        let (mut script, transcript) = (Appended::new(script)?, Appended::new(transcript)?);
        script.append(lines)?;
        Ok(Kept { script, transcript, ahead: 0, gave: Vec::new() })
    }

    /// Appends the first of these lines, up to an aligned position.
    pub fn write_first(&mut self, lines: &[u8]) -> io::Result<()> {
        let rest = &lines[self.ahead..];
        let end = self.script.length() + to_u64(rest.len());
        let beyond = to_usize(end % WELL);
        if beyond < rest.len() {
            self.script.append(&rest[..rest.len() - beyond])?;
            self.ahead += rest.len() - beyond;
        }
        Ok(())
    }

    /// Appends the rest of these lines, and the results. The first of the next lines, if there are any, are written
    /// with them up to an aligned position, and the results may wait.
    pub fn write(&mut self, lines: &[u8], gave: &[u8], next: Option<&[u8]>) -> io::Result<()> {
        let rest = &lines[self.ahead..];
        self.ahead = 0;
        if !rest.is_empty() {
            let end = self.script.length() + to_u64(rest.len());
            let beyond = to_usize((WELL - end % WELL) % WELL);
            let first = next.map_or(&[][..], |it| &it[..beyond.min(it.len())]);
            self.script.append_both(rest, first)?;
            self.ahead = first.len();
        }
        self.write_gave(gave, next.is_some())
    }

    /// Appends results, unless they may wait.
    fn write_gave(&mut self, gave: &[u8], may_wait: bool) -> io::Result<()> {
        if self.gave.is_empty() && !may_wait {
            return self.transcript.append(gave);
        }
        self.gave.extend_from_slice(gave);
        if !may_wait || self.gave.len() >= GAVE {
            self.transcript.append(&self.gave)?;
            self.gave.clear();
        }
        Ok(())
    }

    /// Releases the unused space.
    pub fn give_back(&mut self) {
        self.script.give_back();
        self.transcript.give_back();
    }
}

impl Synced for Kept {
    fn sync(&mut self) -> io::Result<()> {
        self.script.sync()?;
        self.transcript.sync()
    }
}

impl Drop for Kept {
    /// If the next lines can't be written, the transcript still gets the results of those before.
    fn drop(&mut self) {
        let _ = self.transcript.append(&self.gave);
    }
}

#[cfg(test)]
mod tests {
    use super::*;
    use std::fs;
    use std::path::{Path, PathBuf};

    /// A script with no lines, in files of this name, and how many bytes they have.
    fn created(name: &str) -> (Kept, PathBuf, impl Fn() -> [u64; 2]) {
        let path = std::env::temp_dir().join(format!("nvmetcp-{name}-{}", std::process::id()));
        let paths = [path.clone(), path.with_extension("out")];
        let files = [0, 1].map(|it: usize| File::create(&paths[it]).unwrap());
        let lengths = move || [0, 1].map(|it: usize| fs::metadata(&paths[it]).unwrap().len());
        (Kept::new(files, b"").unwrap(), path, lengths)
    }

    /// Distinct bytes for each number.
    fn bytes(number: usize, count: usize) -> Vec<u8> {
        (0..count).map(|at| (at / 7 + 31 * number) as u8).collect()
    }

    fn remove(path: &Path) {
        [path.to_owned(), path.with_extension("out")].iter().for_each(|it| fs::remove_file(it).unwrap());
    }

    #[test]
    fn lines_end_well_where_there_are_more() {
        let (mut kept, path, lengths) = created("well");
        let long = 2 * WELL + 1000;
        let lines: Vec<Vec<u8>> = (0..6).map(|it| bytes(it, if it == 3 { 200 } else { long as usize })).collect();
        // How far the script is once the first bytes of each are written, and once all are.
        let ends = [
            [2 * WELL, 3 * WELL],
            [4 * WELL, 5 * WELL],
            [6 * WELL, 6 * WELL + 3200],
            [6 * WELL + 3200; 2],
            [8 * WELL, 9 * WELL],
            [10 * WELL, 5 * long + 200],
        ];
        for (it, [first, end]) in ends.into_iter().enumerate() {
            kept.write_first(&lines[it]).unwrap();
            assert_eq!(lengths(), [first, 0]);
            kept.write(&lines[it], b"gave", lines.get(it + 1).map(|it| &it[..])).unwrap();
            assert_eq!(lengths(), [end, if it == 5 { 24 } else { 0 }]);
        }
        assert!(fs::read(&path).unwrap() == lines.concat());
        remove(&path);
    }

    #[test]
    fn all_is_written_where_there_is_no_more() {
        let (mut kept, path, lengths) = created("all");
        let (mut lines, mut gave) = (Vec::new(), Vec::new());
        for (it, count) in [0, 1, WELL as usize - 1, WELL as usize, 1, 3 * WELL as usize, 70].into_iter().enumerate() {
            let piece = bytes(it, count);
            if it % 2 == 1 {
                kept.write_first(&piece).unwrap();
            }
            kept.write(&piece, &piece[count / 2..], None).unwrap();
            lines.extend_from_slice(&piece);
            gave.extend_from_slice(&piece[count / 2..]);
            assert_eq!(lengths(), [lines.len() as u64, gave.len() as u64]);
        }
        assert!(fs::read(&path).unwrap() == lines && fs::read(path.with_extension("out")).unwrap() == gave);
        remove(&path);
    }

    #[test]
    fn what_many_lines_gave_is_written() {
        let (mut kept, path, lengths) = created("gave");
        for it in 1..=40 {
            kept.write(&bytes(it, 3000), &bytes(it, 2500), Some(&bytes(it + 1, 3000))).unwrap();
            let [lines, gave] = lengths();
            assert!(gave <= lines && gave + GAVE as u64 > 2500 * it as u64);
        }
        assert_ne!(lengths()[1], 100_000);
        drop(kept);
        assert_eq!(lengths()[1], 100_000);
        remove(&path);
    }
}
