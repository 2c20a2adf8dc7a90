//! Pages of memory that are returned to the system.
//!
//! Why it is safe: they are returned while there is one thread, and only those that have zeros, as they have when they
//! come back.

use std::io;

extern "C" {
    fn madvise(at: *mut u8, count: usize, advice: i32) -> i32;
}

/// Mappings of fewer bytes are left alone.
const LEAST_MAPPED: usize = 1 << 20;
const PAGE: usize = 4096;
/// MADV_DONTNEED, and MADV_NOHUGEPAGE.
const NOT_NEEDED: i32 = 4;
const SMALL_PAGES: i32 = 15;

/// The addresses of a line of /proc/self/maps, if it is memory of this process that no file is below.
fn own_memory(line: &str) -> Option<(usize, usize)> {
    let words: Vec<&str> = line.split_whitespace().collect();
    let (from, to) = match words[..] {
        [range, "rw-p", _, _, "0"] => range.split_once('-')?,
        _ => return None,
    };
    Some((usize::from_str_radix(from, 16).ok()?, usize::from_str_radix(to, 16).ok()?))
}

#[allow(clippy::as_conversions)] // An address has no other conversion to a pointer.
fn has_only_zeros(page: usize) -> bool {
    // SAFETY: the page is memory of this process, which nobody writes to, since there is one thread.
    let words = unsafe { std::slice::from_raw_parts(page as *const u64, PAGE / 8) };
    words.iter().all(|it| *it == 0)
}

/// Returns pages of large mappings that have only zeros, and so take memory for nothing, to the system: the memory of
/// the controllers' hosts, of which the target uses little. It is called before there is a second thread.
#[allow(clippy::as_conversions)] // An address has no other conversion to a pointer.
pub fn give_back_zeros() -> io::Result<()> {
    let maps = std::fs::read_to_string("/proc/self/maps")?;
    for (from, to) in maps.lines().filter_map(own_memory).filter(|(from, to)| to - from >= LEAST_MAPPED) {
        // SAFETY: advice on the size of pages changes no byte.
        unsafe { madvise(from as *mut u8, to - from, SMALL_PAGES) };
        let mut begin = from;
        for page in (from..=to).step_by(PAGE) {
            if page == to || !has_only_zeros(page) {
                // SAFETY: these pages have only zeros, as they have when they come back.
                unsafe { madvise(begin as *mut u8, page - begin, NOT_NEEDED) };
                begin = page + PAGE;
            }
        }
    }
    Ok(())
}

#[cfg(test)]
mod tests {
    use super::*;

    #[test]
    fn own_memory_has_no_file() {
        assert_eq!(own_memory("7f10-7f20 rw-p 00000000 00:00 0 "), Some((0x7f10, 0x7f20)));
        for other in ["7f10-7f20 r--p 00000000 00:00 0", "7f-80 rw-p 0 00:00 0 [heap]", "7f-80 rw-p 0 fe:00 33 /lib/it"]
        {
            assert_eq!(own_memory(other), None);
        }
    }
}
