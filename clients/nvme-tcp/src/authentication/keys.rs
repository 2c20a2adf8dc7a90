//! The file of `--keys`: the HOSTID, the HOSTNQN and the secrets of each host. A proof covers the HOSTNQN, but
//! reservations belong to a HOSTID, so the file binds the two.

use crate::authentication::crypto::Wiped;
use crate::authentication::secret::{NoSecret, Secret};
use crate::numbers::{to_u64, to_usize};
use crate::options::{host_id, is_name};
use crate::system;
use crate::target::uuid;
use std::error::Error;
use std::fmt;
use std::fs::{self, File};
use std::io::{self, Read};
use std::os::unix::fs::MetadataExt;
use std::path::{Path, PathBuf};
use std::sync::Arc;

/// Largest file that is read: some hundreds of hosts, each of which is compared with all others.
const MOST_BYTES: usize = 64 << 10;
/// Mode bits for access by others than the owner.
const OTHERS: u32 = 0o077;
const FORM: &str = "a line is HOSTID HOSTNQN SECRET, or HOSTID HOSTNQN SECRET SECRET-OF-THE-CONTROLLER";

/// A line of the file.
pub struct Host {
    id: [u8; 16],
    pub(super) name: String,
    /// By which the host proves itself.
    pub(super) secret: Secret,
    /// By which the subsystem proves itself to this host.
    pub(super) controller: Option<Secret>,
    line: usize,
}

impl Host {
    /// Refuses a host that has something in common with another. `words` are its line.
    fn check_differs(&self, other: &Host, words: &[Word<'_>]) -> Result<(), BadLine> {
        let line = other.line;
        let has = |it: &Option<Secret>, secret: &Secret| it.as_ref().map_or(false, |it| it.is_same(secret));
        if other.id == self.id {
            Err(words[0].bad(LineFault::SameHostId(line)))
        } else if other.name == self.name {
            Err(words[1].bad(LineFault::SameHostName(line)))
        } else if other.secret.is_same(&self.secret) || has(&other.controller, &self.secret) {
            Err(words[2].bad(LineFault::SameSecret(line)))
        } else if has(&self.controller, &other.secret) {
            Err(words[3].bad(LineFault::SecretOfHost(line)))
        } else {
            Ok(())
        }
    }
}

/// Hosts. No two share a HOSTID, a HOSTNQN or a secret.
#[derive(Default)]
pub struct Keys {
    hosts: Vec<Arc<Host>>,
}

/// What is wrong with a line.
#[derive(Debug, PartialEq, Eq)]
pub enum LineFault {
    NotUtf8,
    /// The file has no line of a host.
    NoHost,
    FewWords(usize),
    FifthWord,
    /// A word is no HOSTID, but may be a number by which CONFIG has a host: the word and the number.
    NoHostId(Option<(String, u128)>),
    NoHostName,
    /// The secret of the host with this name.
    HostSecret(NoSecret, String),
    ControllerSecret(NoSecret),
    /// The host's secret is the controller's too.
    OneSecret,
    /// The line with this number has the same HOSTID, HOSTNQN or secret, or a host with the controller's secret.
    SameHostId(usize),
    SameHostName(usize),
    SameSecret(usize),
    SecretOfHost(usize),
}

impl fmt::Display for LineFault {
    /// The reason and a hint.
    fn fmt(&self, f: &mut fmt::Formatter<'_>) -> fmt::Result {
        let own = "make each its own: nvme gen-dhchap-key --nqn=HOSTNQN";
        match self {
            LineFault::NotUtf8 => write!(f, "this is not UTF-8; {FORM}"),
            LineFault::NoHost => write!(f, "there is no host in it: none could connect; {FORM}"),
            LineFault::FewWords(count) => write!(f, "there are {count} words, and no more; {FORM}"),
            LineFault::FifthWord => write!(f, "there is a fifth word; {FORM}"),
            LineFault::NoHostId(None) => {
                f.write_str("this is no HOSTID; it is a UUID, as a1000000-0000-0000-0000-000000000000")
            }
            LineFault::NoHostId(Some((word, host))) => {
                write!(f, "this is no HOSTID; that of host {word} is {}", uuid(*host))
            }
            LineFault::NoHostName => {
                f.write_str("this is no HOSTNQN; it begins with nqn. and has at most 223 characters")
            }
            LineFault::HostSecret(error, name) => write!(f, "{error}; nvme gen-dhchap-key --nqn={name} makes one"),
            LineFault::ControllerSecret(error) => {
                write!(f, "{error}; nvme gen-dhchap-key --nqn=NAME makes one, for the subsystem's name")
            }
            LineFault::OneSecret => f.write_str("this secret is the host's too; the controller has one of its own"),
            LineFault::SameHostId(line) => write!(f, "line {line} has this HOSTID; a host has one line"),
            LineFault::SameHostName(line) => write!(f, "line {line} has this HOSTNQN; a host has one line"),
            LineFault::SameSecret(line) => {
                write!(f, "line {line} has this secret: its host could pass for this one; {own}")
            }
            LineFault::SecretOfHost(line) => write!(f, "this is the secret of the host of line {line}; {own}"),
        }
    }
}

/// Why a line is refused, and where.
#[derive(Debug, PartialEq, Eq)]
pub struct BadLine {
    line: usize,
    column: usize,
    fault: LineFault,
}

impl fmt::Display for BadLine {
    fn fmt(&self, f: &mut fmt::Formatter<'_>) -> fmt::Result {
        write!(f, "{}:{}: {}", self.line, self.column, self.fault)
    }
}

impl Error for BadLine {}

/// Why a file is refused. The message begins with its path.
#[derive(Debug)]
pub enum KeysError {
    System(PathBuf, io::Error),
    Line(PathBuf, BadLine),
}

impl fmt::Display for KeysError {
    fn fmt(&self, f: &mut fmt::Formatter<'_>) -> fmt::Result {
        match self {
            KeysError::System(path, error) => write!(f, "{}: {error}", path.display()),
            KeysError::Line(path, error) => write!(f, "{}:{error}", path.display()),
        }
    }
}

impl Error for KeysError {}

/// A word of a line, and its column.
#[derive(Clone, Copy)]
struct Word<'t> {
    text: &'t str,
    line: usize,
    column: usize,
}

impl Word<'_> {
    fn bad(self, fault: LineFault) -> BadLine {
        BadLine { line: self.line, column: self.column, fault }
    }
}

/// The words of a line.
#[allow(clippy::as_conversions)] // An address has no other conversion.
fn words(text: &str, line: usize) -> Vec<Word<'_>> {
    let begin = text.as_ptr() as usize;
    let column = |word: &str| word.as_ptr() as usize - begin + 1;
    text.split_ascii_whitespace().map(|text| Word { text, line, column: column(text) }).collect()
}

impl Keys {
    /// Reads a file.
    pub fn read(path: &Path) -> Result<Keys, KeysError> {
        let text = text_of(path).map_err(|error| KeysError::System(path.to_owned(), error))?;
        Keys::of(&text).map_err(|error| KeysError::Line(path.to_owned(), error))
    }

    /// Reads a text. Empty lines, and those that begin with `#`, are comments.
    pub fn of(bytes: &[u8]) -> Result<Keys, BadLine> {
        let mut keys = Keys::default();
        for (line, bytes) in (1..).zip(bytes.split(|byte| *byte == b'\n')) {
            let text = std::str::from_utf8(bytes).map_err(|error| {
                let place = Word { text: "", line, column: error.valid_up_to() + 1 };
                place.bad(LineFault::NotUtf8)
            })?;
            let words = words(text, line);
            if words.first().map_or(false, |it| !it.text.starts_with('#')) {
                let host = host_of(&words)?;
                keys.check_is_new(&host, &words)?;
                keys.hosts.push(Arc::new(host));
            }
        }
        if keys.hosts.is_empty() {
            return Err(Word { text: "", line: 1, column: 1 }.bad(LineFault::NoHost));
        }
        Ok(keys)
    }

    /// Refuses a host that could pass for another one.
    fn check_is_new(&self, host: &Host, words: &[Word<'_>]) -> Result<(), BadLine> {
        if host.controller.as_ref().map_or(false, |it| it.is_same(&host.secret)) {
            return Err(words[3].bad(LineFault::OneSecret));
        }
        self.hosts.iter().try_for_each(|other| host.check_differs(other, words))
    }

    /// The host that has both, HOSTID and HOSTNQN.
    pub fn host(&self, id: &[u8; 16], name: &[u8]) -> Option<&Arc<Host>> {
        self.hosts.iter().find(|it| it.id == *id && it.name.as_bytes() == name)
    }

    /// Whether a host of this HOSTID is there.
    pub fn has_id(&self, id: &[u8; 16]) -> bool {
        self.hosts.iter().any(|it| it.id == *id)
    }
}

/// The host of a line that is not empty.
fn host_of(words: &[Word<'_>]) -> Result<Host, BadLine> {
    let (id, name, secret, rest) = match words {
        [id, name, secret, rest @ ..] if rest.len() < 2 => (id, name, secret, rest),
        [_, _, _, _, more, ..] => return Err(more.bad(LineFault::FifthWord)),
        _ => {
            let last = words[words.len() - 1];
            let end = Word { column: last.column + last.text.len(), ..last };
            return Err(end.bad(LineFault::FewWords(words.len())));
        }
    };
    let line = id.line;
    let bytes = host_id(id.text).ok_or_else(|| id.bad(LineFault::NoHostId(number_of(id.text))))?;
    if !is_name(name.text) {
        return Err(name.bad(LineFault::NoHostName));
    }
    let name = name.text.to_owned();
    let of_host = |error: NoSecret| secret.bad(LineFault::HostSecret(error, name.clone()));
    let secret = Secret::read(secret.text).map_err(of_host)?;
    let read = |word: &Word<'_>| Secret::read(word.text).map_err(|error| word.bad(LineFault::ControllerSecret(error)));
    let controller = rest.first().map(read).transpose()?;
    Ok(Host { id: bytes, name, secret, controller, line })
}

/// A number of a host, as CONFIG has it, and its word.
fn number_of(word: &str) -> Option<(String, u128)> {
    let number = word.strip_prefix("0x").and_then(|digits| u128::from_str_radix(digits, 16).ok());
    number.map(|number| (word.to_owned(), number))
}

/// The bytes of a file. Only its owner may have access to it, who must be this process's user or root.
fn text_of(path: &Path) -> io::Result<Wiped> {
    let wrong = |text: String| Err(io::Error::new(io::ErrorKind::PermissionDenied, text));
    if !fs::metadata(path)?.is_file() {
        return wrong("it is no file".to_owned());
    }
    let mut file = File::open(path)?;
    let found = file.metadata()?;
    if found.mode() & OTHERS != 0 {
        let mode = found.mode() & 0o7777;
        return wrong(format!("others than its owner can read or write it, by mode {mode:04o}: chmod 600 it"));
    }
    if found.uid() != 0 && found.uid() != system::user() {
        return wrong(format!("it is of user {}, neither root nor the one that this runs as", found.uid()));
    }
    if found.len() > to_u64(MOST_BYTES) {
        return wrong(format!("it has {} bytes; at most {MOST_BYTES} are read", found.len()));
    }
    Wiped::filled(to_usize(found.len()), |bytes| file.read_exact(bytes))
}

#[cfg(all(test, feature = "authentication"))]
mod tests {
    use super::*;

    const A: &str = "a1000000-0000-0000-0000-000000000000 nqn.2024-01.example:a1";
    const B: &str = "b2000000-0000-0000-0000-000000000000 nqn.2024-01.example:b2";
    const ONE: &str = "DHHC-1:01:3X0j8i/J+hOalK55SyjrXPsklzadBmbcemg++I96hS3NslrP:";
    const TWO: &str = "DHHC-1:01:rrnOVbtg3xNc6EKqVlqRW2YzxNCr8gSWcae74vHUcIR7iPgb:";
    const THREE: &str = "DHHC-1:01:1aR4IC0vg5jjcfK7kB1OQ40U3mS4rcaVkNXC5f0u5zF4RzU0:";

    fn refused(text: &str) -> String {
        Keys::of(text.as_bytes()).err().unwrap().to_string()
    }

    #[test]
    fn both_names_find_a_host() {
        let text = format!("# hosts\n\n {A}\t{ONE} {TWO}\r\n{B} {THREE} {TWO}\n");
        let keys = Keys::of(text.as_bytes()).unwrap();
        let (a, b) = (host_id(&A[..36]).unwrap(), host_id(&B[..36]).unwrap());
        assert!(keys.host(&a, &A.as_bytes()[37..]).unwrap().controller.is_some());
        assert!(keys.host(&b, &A.as_bytes()[37..]).is_none() && keys.host(&a, &B.as_bytes()[37..]).is_none());
        assert!(keys.has_id(&b) && !keys.has_id(&[0; 16]));
    }

    #[test]
    fn bad_lines() {
        for (text, wanted) in [
            ("", "1:1: there is no host in it"),
            ("# nothing\n", "1:1: there is no host in it"),
            ("a1", "1:3: there are 1 words, and no more; a line is HOSTID HOSTNQN SECRET"),
            (A, "1:60: there are 2 words"),
            (&format!("\n{A} {ONE} {TWO} x"), "2:181: there is a fifth word"),
            (&format!("0xa1 nqn.x {ONE}"), "1:1: this is no HOSTID; that of host 0xa1 is a1000000-0000-0000-0000-0"),
            (&format!("a1 nqn.x {ONE}"), "1:1: this is no HOSTID; it is a UUID"),
            (&format!("{} x {ONE}", &A[..36]), "1:38: this is no HOSTNQN; it begins with nqn."),
            (&format!("{A} {}", &ONE[1..]), "1:61: this is no secret: it has not the form"),
            (&format!("{A} {ONE} {}", &TWO[..58]), "1:121: this is no secret"),
            (&format!("{A} {}", ONE.replace("3X", "3Y")), "1:61: this secret's checksum is wrong"),
            (&format!("{A} {ONE}\n{} nqn.2 {TWO}", &A[..36]), "2:1: line 1 has this HOSTID"),
            (&format!("{A} {ONE}\n{} {} {TWO}", &B[..36], &A[37..]), "2:38: line 1 has this HOSTNQN"),
            (&format!("{A} {ONE}\n{B} {ONE}"), "2:61: line 1 has this secret: its host could pass for this one"),
            (&format!("{A} {ONE} {TWO}\n{B} {TWO}"), "2:61: line 1 has this secret"),
            (&format!("{A} {ONE}\n{B} {TWO} {ONE}"), "2:121: this is the secret of the host of line 1"),
            (&format!("{A} {ONE} {ONE}"), "1:121: this secret is the host's too"),
        ] {
            let told = refused(text);
            assert!(told.starts_with(wanted) && !told.contains("3X0j") && told.contains("; "), "{told}");
        }
        assert!(Keys::of(b"\n\xff").err().unwrap().to_string().starts_with("2:1: this is not UTF-8"));
    }
}
