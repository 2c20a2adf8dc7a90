//! CONFIG: the lines of a script before its `start`, which describe the subsystem. The library reads them, and judges
//! them as it does for the programs that run scripts.

use crate::nvme::MOST_NAMESPACES;
use crate::options::host_id;
use nvmesim::{read_configuration, Config, ConfigError, Controller, LineError, ANY_SIZE, SCRIPT_BLOCKS};
use std::error::Error;
use std::fmt;
use std::fs::File;
use std::io::{self, Read};
use std::path::Path;

/// One more than the longest text that the library accepts.
const MOST_TEXT: u64 = (4 << 20) + 1;

/// Why a text is refused. The message begins with line and column, or with a space.
#[derive(Clone, Debug, PartialEq, Eq)]
pub enum ConfigurationError {
    /// If a host is written as a UUID, the number to write instead.
    Text(ConfigError, Option<u128>),
    /// It has no lines.
    Lines(LineError),
}

impl fmt::Display for ConfigurationError {
    fn fmt(&self, f: &mut fmt::Formatter<'_>) -> fmt::Result {
        match self {
            ConfigurationError::Text(error, _) if error.reason.is_empty() => write!(f, " {:?}", error.name)?,
            ConfigurationError::Text(error, _) => f.write_str(&error.reason)?,
            ConfigurationError::Lines(error) => write!(f, " {error}")?,
        }
        if let ConfigurationError::Text(_, Some(host)) = self {
            write!(f, "; the host with this HOSTID is {host:#034x}")?;
        }
        Ok(())
    }
}

impl Error for ConfigurationError {}

/// A subsystem as CONFIG describes it. Its hosts have no drivers, since Linux is theirs.
#[derive(Clone, Debug, PartialEq, Eq)]
pub struct Configuration {
    pub config: Config,
    /// The lines of a script that describe the same.
    pub lines: String,
}

/// The text of a file, as far as a configuration may be long.
pub fn text_of(path: &Path) -> io::Result<Vec<u8>> {
    let mut text = Vec::new();
    File::open(path)?.take(MOST_TEXT).read_to_end(&mut text)?;
    Ok(text)
}

impl Configuration {
    /// Reads a text, and checks it for an image of `blocks` blocks.
    pub fn read(text: &[u8], blocks: u64) -> Result<Configuration, ConfigurationError> {
        let mut config = read_configuration(text, ANY_SIZE, blocks).map_err(|error| refused(text, error))?;
        config.controllers.iter_mut().for_each(|it| it.raw = true);
        let lines = config.lines().map_err(ConfigurationError::Lines)?;
        Ok(Configuration { config, lines })
    }

    /// The host of each controller.
    pub fn hosts(&self) -> Vec<u128> {
        self.config.controllers.iter().map(Controller::host).collect()
    }

    /// How many blocks all namespaces have. A configuration whose blocks exceed 64 bits is refused.
    pub fn total_blocks(&self) -> u64 {
        self.config.namespaces.iter().map(|it| it.blocks).sum()
    }

    /// Whether a namespace is too large for a script, unless the program that runs it gets `--any-size`.
    pub fn has_large_namespace(&self) -> bool {
        self.config.namespaces.iter().any(|it| it.blocks > SCRIPT_BLOCKS)
    }

    /// The place of a namespace in the list of all.
    #[inline]
    pub fn place(&self, nsid: u32) -> Option<usize> {
        self.config.namespaces.iter().position(|it| it.nsid == nsid)
    }

    /// Number of blocks of a namespace, 0 if there is none.
    pub fn blocks(&self, nsid: u32) -> u64 {
        self.place(nsid).map_or(0, |at| self.config.namespaces[at].blocks)
    }

    /// Whether a namespace may have this identifier.
    pub fn may_be(nsid: u32) -> bool {
        (1..=MOST_NAMESPACES).contains(&nsid)
    }
}

/// A refusal of a text, with the number of the host at its place, if that is written as a UUID.
fn refused(text: &[u8], error: ConfigError) -> ConfigurationError {
    let line = text.split(|byte| *byte == b'\n').nth(error.line.wrapping_sub(1)).unwrap_or_default();
    let rest = line.get(error.column.wrapping_sub(1)..).unwrap_or_default();
    let word = rest.split(u8::is_ascii_whitespace).next().unwrap_or_default();
    let host = std::str::from_utf8(word).ok().and_then(host_id);
    ConfigurationError::Text(error, host.map(u128::from_le_bytes))
}

#[cfg(test)]
mod tests {
    use super::*;

    #[test]
    fn lines_describe_the_same() {
        let text = b"# hosts \xff\ncontroller 1 host 0xa1\ncontroller 2 host 178 raw\nnamespace 1 blocks 64 shared\n\
                     namespace 3 blocks 0x8 private\nattached 2 1\nstart\n";
        let read = Configuration::read(text, 72).unwrap();
        assert_eq!(Configuration::read(read.lines.as_bytes(), 72).as_ref(), Ok(&read));
        assert!(read.lines.starts_with("controller 1 host 0xa1 raw\ncontroller 2 host 0xb2 raw\n"), "{}", read.lines);
        assert_eq!((read.total_blocks(), read.blocks(3), read.blocks(2)), (72, 8, 0));
        assert!(Configuration::read(text, 71)
            .unwrap_err()
            .to_string()
            .starts_with("5:1: namespace 3 ends after the 71 blocks"));
    }
    #[test]
    fn a_host_as_a_uuid_is_refused_with_its_number() {
        let text = b"controller 1 host a1000000-0000-0000-0000-000000000000\n";
        let told = Configuration::read(text, 0).unwrap_err().to_string();
        assert!(told.starts_with("1:19: "), "{told}");
        assert!(told.ends_with("; the host with this HOSTID is 0x000000000000000000000000000000a1"), "{told}");
        let told = Configuration::read(b"controller 1 host x\n", 0).unwrap_err().to_string();
        assert!(!told.contains("HOSTID"), "{told}");
    }
}
