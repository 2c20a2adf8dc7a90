//! The command line.

use crate::authentication::crypto::Hash;
use crate::authentication::groups::Group;
use crate::authentication::Choice;
use crate::control::log::Form;
use crate::fabrics::admission::Admission;
use crate::storage::options::{self as storage, SizeError};
use crate::target::Settings;
use std::error::Error;
use std::ffi::OsString;
use std::fmt;
use std::net::{IpAddr, Ipv4Addr, SocketAddr};
use std::path::PathBuf;

/// What `--help` prints.
pub const HELP: &str = "\
nvmetcp [OPTIONS] CONFIG       serve the subsystem that CONFIG describes as an NVMe/TCP target
nvmetcp [OPTIONS] VOLUME       serve a volume, which has its blocks, its state and its CONFIG
nvmetcp format VOLUME          make a volume of a file or block device, with --config CONFIG; --size SIZE creates a
                               larger file, --force overwrites what is there, --lease SECONDS is how long a target
                               may serve after it has last read that it is the owner, by default 4
nvmetcp check VOLUME           report whether VOLUME would be refused
nvmetcp dump VOLUME            print superblock, CONFIG and state of a volume
nvmetcp copy VOLUME FILE       copy a volume that no target has; --force overwrites what is in FILE
nvmetcp ctl SOCKET LINE        ask a running target a control line
nvmetcp expand FILE [OUTPUT]   print the script of the recording FILE as --script would have kept it, or write it to
                               OUTPUT; with --transcript its results, with --force also if OUTPUT exists

CONFIG has the lines of a script before `start`: controllers with their hosts, namespaces, attachments.

  --image FILE                 use the blocks of this file or block device instead of zeros in memory, and lock it
  --size SIZE                  create FILE with this size, sparse, if it does not exist
  --cache SIZE                 memory for blocks of FILE, by default 256M
  --direct                     read and write FILE with O_DIRECT
  --write-through              answer each write after it is synced, and report no volatile write cache
  --read-only                  write protect all namespaces, which no host can change; the default if FILE can't be
                               written
  --wait                       wait for files and addresses that other processes use, instead of refusing
  --listen ADDRESS:PORT        listen there, by default at 127.0.0.1:4420; may be repeated. [ADDRESS] is IPv6, and
                               [::] includes IPv4
  --name NQN                   the subsystem's name, by default nqn.2024-01.example:suvmileh
  --keys FILE                  authenticate hosts by DH-HMAC-CHAP; FILE has a line HOSTID HOSTNQN SECRET
                               [SECRET-OF-THE-CONTROLLER] for each, only its owner may access it, and SIGHUP rereads
                               it
  --dhchap HASH,GROUP          hash and DH group of authentication, by default sha256,ffdhe2048: sha256, sha384 or
                               sha512; null, ffdhe2048, ffdhe3072, ffdhe4096, ffdhe6144 or ffdhe8192
  --allow HOSTID=ADDRESS       accept the host of CONFIG with this HOSTID, a UUID, from this address only; may be
                               repeated
  --trust-network              trust anyone who reaches the target; to listen beyond loopback it needs this, --keys,
                               or --allow for each host
  --advertise ADDRESS:PORT     the address that discovery returns, if hosts reach the target by another one
  --state FOLDER               keep reservations, write protection and attachments there, over restarts
  --script FILE                keep the run there as a script, and its results in FILE.out; up to 64 MiB of the disk
                               are reserved ahead for each, and released after an idle second
  --record FILE                keep the run there as a recording, in half the space and with less work than a script,
                               instead of --script
  --force                      replace FILE and FILE.out of a script, or FILE of a recording, if they exist
  --control SOCKET             answer control lines at this socket, in a folder of its user alone
  --log FORM                   log hosts, refusals, fences and faults on standard error as text, json or none, by
                               default as text
  --trace                      log on standard error what hosts do
  --check CONFIG               report whether CONFIG would be refused, and serve nothing
  --where                      print the path of the program
  --help, -h                   print this
  --version                    print the version, and whether the library below was built with its proofs

Control lines: powercycle, hold C, held C, go C, ana C STATE, hosts, counts, metrics; and queries, as in nvmelive:
?reservation N, ?attached, ?namespaces, ?blocks N SLBA COUNT, ?fetched C, ?queues C, ?registers C, ?register C OFF,
?window C ADDR LEN, ?help [WORD], ?line TEXT.
Runs until SIGTERM or SIGINT: it then sends the answers that are due, syncs its files and closes its connections; a
second signal ends it at once. Exit status: 0 ended by a signal; 1 the configuration, the volume, the keys or the
recording are refused, the end of the recording is torn, or there is no such line; 2 a file, a socket or the system
failed; 3 bad command line.
";

/// Why a command line is refused.
#[derive(Clone, Debug, PartialEq, Eq)]
pub enum UsageError {
    /// The last word begins as an option.
    LastOption(String),
    Unknown(String),
    /// The command has no such option.
    NotOfCommand(String),
    LacksValue(String),
    NotUtf8(String),
    /// An option, and its value.
    NotUnderstood(String, String),
    Lease(String),
    Size(SizeError),
    ChoiceWithoutKeys,
    ScriptAndRecording,
    NotOneConfig,
    /// The option is about blocks or state, which a volume has in itself.
    OfVolume,
    WithoutImage,
}

impl fmt::Display for UsageError {
    fn fmt(&self, f: &mut fmt::Formatter<'_>) -> fmt::Result {
        match self {
            UsageError::LastOption(option) => write!(f, "{option} is not an option, or lacks its value"),
            UsageError::Unknown(option) => write!(f, "{option} is not an option"),
            UsageError::NotOfCommand(option) => write!(f, "{option} is not an option of this command"),
            UsageError::LacksValue(option) => write!(f, "{option} lacks its value"),
            UsageError::NotUtf8(option) => write!(f, "{option}: not UTF-8"),
            UsageError::NotUnderstood(option, value) => write!(f, "{option} {value}: not understood"),
            UsageError::Lease(text) => write!(f, "--lease {text}: a lease has 1 to 60 whole seconds"),
            UsageError::Size(error) => error.fmt(f),
            UsageError::ChoiceWithoutKeys => f.write_str("--dhchap needs --keys"),
            UsageError::ScriptAndRecording => f.write_str("--script and --record exclude each other"),
            UsageError::NotOneConfig => f.write_str("one CONFIG is needed"),
            UsageError::OfVolume => {
                f.write_str("a volume has its blocks and its state: leave --image, --size and --state out")
            }
            UsageError::WithoutImage => f.write_str("--size, --cache, --direct and --write-through need --image"),
        }
    }
}

impl Error for UsageError {}

impl From<SizeError> for UsageError {
    fn from(error: SizeError) -> Self {
        UsageError::Size(error)
    }
}

/// The words of a command line.
pub struct Options {
    pub config: PathBuf,
    pub image: Option<PathBuf>,
    /// How the image is opened and cached.
    pub storage: storage::Options,
    /// Whether locks that others hold are waited for.
    pub waits: bool,
    /// Whether a script or a recording replaces files that are there.
    pub replaces: bool,
    /// The addresses to listen at.
    pub listen: Vec<SocketAddr>,
    pub settings: Settings,
    pub state: Option<PathBuf>,
    pub script: Option<PathBuf>,
    pub recording: Option<PathBuf>,
    pub keys: Option<PathBuf>,
    /// The hash and the DH group of authentication, if they are given.
    pub choice: Option<Choice>,
    pub control: Option<PathBuf>,
}

impl Options {
    /// Parses the words after the program's name. The error says what is wrong with them.
    pub fn read(words: impl Iterator<Item = OsString>) -> Result<Options, UsageError> {
        let settings = Settings {
            name: "nqn.2024-01.example:suvmileh".to_owned(),
            admission: Admission::default(),
            advertised: None,
            is_read_only: false,
            traces: false,
            log: Form::Text,
        };
        let (config, listen) = (PathBuf::new(), Vec::new());
        let mut options = Options {
            config,
            image: None,
            storage: storage::Options::default(),
            waits: false,
            replaces: false,
            listen,
            settings,
            state: None,
            script: None,
            recording: None,
            keys: None,
            choice: None,
            control: None,
        };
        let (mut words, mut configs) = (words, Vec::new());
        while let Some(word) = words.next() {
            match word.to_str() {
                Some("--trace") => options.settings.traces = true,
                Some("--wait") => options.waits = true,
                Some("--trust-network") => options.settings.admission.trusts_network = true,
                Some("--read-only") => options.settings.is_read_only = true,
                Some("--force") => options.replaces = true,
                Some("--direct") => options.storage.is_direct = true,
                Some("--write-through") => options.storage.writes_through = true,
                Some(option) if option.starts_with('-') => {
                    let value = words.next().ok_or_else(|| UsageError::LastOption(option.to_owned()))?;
                    options.take(option, value)?;
                }
                _ => configs.push(PathBuf::from(word)),
            }
        }
        if options.listen.is_empty() {
            options.listen.push((Ipv4Addr::LOCALHOST, 4420).into());
        }
        if options.choice.is_some() && options.keys.is_none() {
            return Err(UsageError::ChoiceWithoutKeys);
        }
        if options.script.is_some() && options.recording.is_some() {
            return Err(UsageError::ScriptAndRecording);
        }
        match configs.pop() {
            Some(config) if configs.is_empty() => Ok(Options { config, ..options }),
            _ => Err(UsageError::NotOneConfig),
        }
    }

    /// Refuses options on the blocks that need an image, or that a volume has in itself.
    pub fn check_source(&self, is_volume: bool) -> Result<(), UsageError> {
        let has_own = self.image.is_some() || self.state.is_some() || self.storage.size.is_some();
        if is_volume && has_own {
            return Err(UsageError::OfVolume);
        }
        if !is_volume && self.image.is_none() && self.storage != storage::Options::default() {
            return Err(UsageError::WithoutImage);
        }
        Ok(())
    }

    fn take(&mut self, option: &str, value: OsString) -> Result<(), UsageError> {
        let text = value.to_str().ok_or_else(|| UsageError::NotUtf8(option.to_owned()))?;
        let wrong = || UsageError::NotUnderstood(option.to_owned(), text.to_owned());
        match option {
            "--image" => self.image = Some(value.into()),
            "--size" => self.storage.size = Some(storage::image_size_of(text)?),
            "--cache" => self.storage.cache = storage::cache_of(text)?,
            "--state" => self.state = Some(value.into()),
            "--script" => self.script = Some(value.into()),
            "--record" => self.recording = Some(value.into()),
            "--control" => self.control = Some(value.into()),
            "--listen" => self.listen.push(text.parse().map_err(|_| wrong())?),
            "--advertise" => self.settings.advertised = Some(text.parse().map_err(|_| wrong())?),
            "--log" => self.settings.log = Form::of(text).ok_or_else(wrong)?,
            "--name" if is_name(text) => text.clone_into(&mut self.settings.name),
            "--name" => return Err(wrong()),
            "--allow" => self.settings.admission.allowed.push(allowed(text).ok_or_else(wrong)?),
            "--keys" => {
                self.settings.admission.has_keys = true;
                self.keys = Some(value.into());
            }
            "--dhchap" => self.choice = Some(choice(text).ok_or_else(wrong)?),
            _ => return Err(UsageError::Unknown(option.to_owned())),
        }
        Ok(())
    }
}

/// Whether a text is a name that a subsystem or a host may have.
pub fn is_name(text: &str) -> bool {
    text.starts_with("nqn.") && text.len() <= 223 && text.bytes().all(|byte| byte.is_ascii_graphic())
}

/// HASH,GROUP.
fn choice(text: &str) -> Option<Choice> {
    let (hash, group) = text.split_once(',')?;
    let (_, hash) = Hash::ALL.into_iter().find(|(name, _)| *name == hash)?;
    let (_, group) = Group::ALL.into_iter().find(|(name, _)| *name == group)?;
    Some(Choice { hash, group })
}

/// HOSTID=ADDRESS.
fn allowed(text: &str) -> Option<([u8; 16], IpAddr)> {
    let (host, address) = text.split_once('=')?;
    Some((host_id(host)?, address.parse().ok()?))
}

/// The bytes of a HOSTID that is written as a UUID, with its hyphens or without.
pub fn host_id(text: &str) -> Option<[u8; 16]> {
    let digits: String = text.split('-').collect();
    if digits.len() != 32 {
        return None;
    }
    if digits.bytes().all(|byte| byte.is_ascii_hexdigit()) {
        u128::from_str_radix(&digits, 16).ok().map(u128::to_be_bytes)
    } else {
        None
    }
}

#[cfg(test)]
mod tests {
    use super::*;

    fn read(words: &str) -> Result<Options, UsageError> {
        Options::read(words.split_whitespace().map(OsString::from))
    }

    #[test]
    fn words() {
        let options =
            read("--listen [::1]:1 c --allow a1000000-0000-0000-0000-000000000000=10.0.0.1 --image i").ok().unwrap();
        assert_eq!(options.settings.admission.allowed[0].0[..2], [0xa1, 0]);
        assert_eq!(options.listen, ["[::1]:1".parse().unwrap()]);
        assert_eq!((options.config, options.image), ("c".into(), Some("i".into())));
        assert_eq!(read("c").ok().unwrap().listen, ["127.0.0.1:4420".parse().unwrap()]);
        let choice = Choice { hash: Hash::Sha512, group: Group::Null };
        assert_eq!(read("c --keys k --dhchap sha512,null").ok().unwrap().choice, Some(choice));
        for wrong in [
            "",
            "a b",
            "c --listen x",
            "c --image",
            "c --nothing 1",
            "c --name x",
            "c --allow a1=1.2.3.4",
            "c --log x",
            "c --keys k --dhchap sha256",
            "c --keys k --dhchap sha1,null",
            "c --dhchap sha256,null",
            "c --keys",
            "c --record",
            "c --record r --script s",
            "c --image i --size 1",
            "c --image i --cache 1",
        ] {
            assert!(read(wrong).is_err(), "{wrong}");
        }
    }

    #[test]
    fn messages_name_the_word_at_fault() {
        for (words, told) in [
            ("", "one CONFIG is needed"),
            ("c --nothing", "--nothing is not an option, or lacks its value"),
            ("c --nothing 1", "--nothing is not an option"),
            ("c --listen x", "--listen x: not understood"),
            ("c --dhchap sha256,null", "--dhchap needs --keys"),
            ("c --record r --script s", "--script and --record exclude each other"),
            ("c --image i --cache 1", "--cache 1: a cache has at least 4M"),
            ("c --image i --size 1", "--size 1: an image has at least 4K, and a multiple of that"),
        ] {
            assert_eq!(read(words).err().map(|it| it.to_string()).as_deref(), Some(told));
        }
    }

    #[test]
    fn sources() {
        for (words, is_volume, fits) in [
            ("c", false, true),
            ("c --write-through", false, false),
            ("c --image i --write-through", false, true),
            ("v --cache 8M", true, true),
            ("v --image i", true, false),
            ("v --state s", true, false),
        ] {
            assert_eq!(read(words).ok().unwrap().check_source(is_volume).is_ok(), fits, "{words}");
        }
    }
}
