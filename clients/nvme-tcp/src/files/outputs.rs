//! Files that the target writes: each is another file than all others that it uses, and an existing one is replaced
//! only with --force.

use crate::files::locking::{place_of, Lock};
use crate::journal::state;
use crate::options::Options;
use std::error::Error;
use std::ffi::OsString;
use std::fmt;
use std::fs::{self, File, OpenOptions};
use std::io::{self, ErrorKind};
use std::os::unix::fs::FileTypeExt;
use std::path::{Path, PathBuf};

/// Why the files of a command line are refused. The message begins with the file.
#[derive(Debug)]
pub enum OutputError {
    /// It would be two of them.
    Same { path: PathBuf, one: &'static str, other: &'static str },
    /// It can't be an output.
    System(PathBuf, io::Error),
}

impl fmt::Display for OutputError {
    fn fmt(&self, f: &mut fmt::Formatter<'_>) -> fmt::Result {
        match self {
            OutputError::Same { path, one, other } => write!(f, "{}: it would be {one} and {other}", path.display()),
            OutputError::System(path, error) => write!(f, "{}: {error}", path.display()),
        }
    }
}

impl Error for OutputError {}

/// The transcript of a script: next to it, with `.out` at its end.
fn transcript_of(script: &Path) -> PathBuf {
    let mut path = script.as_os_str().to_owned();
    path.push(".out");
    path.into()
}

/// Refuses a command line by which one file would be two of those that the target uses, or by which a script or a
/// recording would replace a file.
pub fn check(options: &Options) -> Result<(), OutputError> {
    let used = used_files(options);
    for (at, (what, path)) in used.iter().enumerate() {
        if let Some((other, _)) = used[..at].iter().find(|(_, it)| is_same(path, it)) {
            return Err(OutputError::Same { path: path.clone(), one: other, other: what });
        }
    }
    let scripts = options.script.iter().flat_map(|it| [it.clone(), transcript_of(it)]);
    for path in scripts.chain(options.recording.clone()) {
        opening(&path, options.replaces).map_err(|error| OutputError::System(path, error))?;
    }
    Ok(())
}

/// The files of a command line, and what each is.
fn used_files(options: &Options) -> Vec<(&'static str, PathBuf)> {
    let mut used = vec![("CONFIG", options.config.clone())];
    used.extend(options.image.iter().map(|it| ("the image", it.clone())));
    used.extend(options.keys.iter().map(|it| ("the file of keys", it.clone())));
    let folders = options.state.iter();
    used.extend(folders.flat_map(|it| state::FILES.map(|name| ("a file of the state folder", it.join(name)))));
    let scripts = options.script.iter();
    used.extend(scripts.flat_map(|it| [("the script", it.clone()), ("its transcript", transcript_of(it))]));
    used.extend(options.recording.iter().map(|it| ("the recording", it.clone())));
    used
}

/// What only one file has: its device and inode. For a path without a file: those of its folder, and its name.
fn place(path: &Path) -> Option<((u64, u64), OsString)> {
    if let Ok(found) = fs::metadata(path) {
        return Some((place_of(&found), OsString::new()));
    }
    let folder = path.parent().filter(|it| *it != Path::new("")).unwrap_or_else(|| Path::new("."));
    Some((place_of(&fs::metadata(folder).ok()?), path.file_name()?.to_owned()))
}

/// How an output is opened. A regular file that exists is refused without --force; a pipe and a character device have
/// nothing to lose.
fn opening(path: &Path, replaces: bool) -> io::Result<OpenOptions> {
    let mut options = OpenOptions::new();
    options.write(true);
    match fs::metadata(path).map(|it| it.file_type()) {
        Err(error) if error.kind() == ErrorKind::NotFound => options.create_new(true),
        Err(error) => return Err(error),
        Ok(kind) if kind.is_fifo() || kind.is_char_device() => &options,
        Ok(kind) if !kind.is_file() => return Err(io::Error::new(ErrorKind::InvalidInput, "it is no file")),
        Ok(_) if replaces => &options,
        Ok(_) => {
            let text = "it exists; --force replaces it";
            return Err(io::Error::new(ErrorKind::AlreadyExists, text));
        }
    };
    Ok(options)
}

/// Begins a script and its transcript. Neither is changed before both are locked.
pub fn create_script(path: &Path, options: &Options) -> io::Result<[File; 2]> {
    let (transcript, is_new) = (transcript_of(path), !path.exists());
    let script = lock(path, options.replaces, options.waits)?;
    let transcript = lock(&transcript, options.replaces, options.waits).map_err(|error| {
        if is_new {
            let _ = fs::remove_file(path);
        }
        io::Error::new(error.kind(), format!("its transcript: {error}"))
    })?;
    [&script, &transcript].into_iter().try_for_each(empty)?;
    Ok([script, transcript])
}

/// Begins an output of one file, such as a recording. It is not changed before it is locked.
pub fn create(path: &Path, replaces: bool, waits: bool) -> io::Result<File> {
    let file = lock(path, replaces, waits)?;
    empty(&file)?;
    Ok(file)
}

/// Removes the content of a file. A stream keeps what it has.
fn empty(file: &File) -> io::Result<()> {
    if file.metadata()?.is_file() {
        file.set_len(0)?;
    }
    Ok(())
}

/// Whether two paths are one file, or would be.
pub fn is_same(one: &Path, other: &Path) -> bool {
    let place_of_one = place(one);
    place_of_one.is_some() && place_of_one == place(other)
}

/// Opens an output and locks it, unless it is a character device, such as /dev/null, which all may share.
fn lock(path: &Path, replaces: bool, waits: bool) -> io::Result<File> {
    let file = opening(path, replaces)?.open(path)?;
    if !file.metadata()?.file_type().is_char_device() {
        Lock::exclusive(waits).take(path, &file)?;
    }
    Ok(file)
}

#[cfg(test)]
mod tests {
    use super::*;

    #[test]
    fn places() {
        let folder = std::env::temp_dir().join(format!("nvmetcp-outputs-{}", std::process::id()));
        fs::create_dir(&folder).unwrap();
        let [here, there] = ["here", "there"].map(|name| folder.join(name));
        fs::write(&here, "").unwrap();
        std::os::unix::fs::symlink("here", folder.join("link")).unwrap();
        fs::hard_link(&here, folder.join("hard")).unwrap();
        for same in ["here", "link", "hard", "./here"] {
            assert_eq!(place(&folder.join(same)), place(&here));
        }
        assert_eq!(place(&there), place(&folder.join(".").join("there")));
        assert!(place(&there) != place(&here) && place(&there) != place(&folder.join("else")));
        assert_eq!(place(&there.join("far")), None);
        fs::remove_dir_all(folder).unwrap();
    }
}
