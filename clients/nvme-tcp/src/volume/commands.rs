//! The command lines of `nvmetcp format`, `check`, `dump` and `copy`.

use super::content::{check, dump};
use super::format::{copy, format, How};
use super::lease::lease_of;
use super::refusal::Refusal;
use crate::commands::{judge, print, ANY_BLOCKS};
use crate::configuration::{self, Configuration};
use crate::exit::{Exit, FAILED, REFUSED};
use crate::files::outputs::is_same;
use crate::options::UsageError;
use crate::storage::options::image_size_of;
use std::ffi::OsString;
use std::path::{Path, PathBuf};

/// The words after a command.
#[derive(Default)]
struct Words {
    paths: Vec<PathBuf>,
    config: Option<PathBuf>,
    how: How,
}

impl Words {
    /// Parses words, of which these options are allowed.
    fn read(words: &[OsString], allowed: &[&str]) -> Result<Words, UsageError> {
        let (mut read, mut words) = (Words::default(), words.iter());
        while let Some(word) = words.next() {
            let option = if let Some(option) = word.to_str().filter(|it| it.starts_with('-')) {
                option
            } else {
                read.paths.push(word.into());
                continue;
            };
            if !allowed.contains(&option) {
                return Err(UsageError::NotOfCommand(option.to_owned()));
            }
            let mut value = || words.next().ok_or_else(|| UsageError::LacksValue(option.to_owned()));
            match option {
                "--force" => read.how.replaces = true,
                "--wait" => read.how.waits = true,
                "--config" => read.config = Some(value()?.into()),
                "--lease" => read.how.lease = Some(lease_of(&value()?.to_string_lossy())?),
                _ => read.how.size = Some(image_size_of(&value()?.to_string_lossy())?),
            }
        }
        Ok(read)
    }
}

/// Runs one of the commands.
pub fn run(command: &str, words: &[OsString]) -> Result<(), Exit> {
    let allowed: &[&str] = match command {
        "format" => &["--config", "--size", "--lease", "--force", "--wait"],
        "copy" => &["--force", "--wait"],
        _ => &[],
    };
    let Words { paths, config, how } = Words::read(words, allowed).map_err(Exit::usage)?;
    let (path, printed) = match (command, &paths[..], config) {
        ("format", [path], Some(config)) => (path, format(path, &configuration_of(&config)?, how)),
        ("copy", [from, to], _) => return print(&copied(from, to, how)?),
        ("check", [path], _) => (path, check(path)),
        ("dump", [path], _) => (path, dump(path)),
        ("format", ..) => return Err(Exit::usage("format needs VOLUME and --config CONFIG")),
        ("copy", ..) => return Err(Exit::usage("copy needs VOLUME and FILE")),
        _ => return Err(Exit::usage(format_args!("{command} needs one VOLUME"))),
    };
    print(&printed.map_err(|refusal| refusal.exit(path))?)
}

fn configuration_of(config: &Path) -> Result<Configuration, Exit> {
    let text = configuration::text_of(config).map_err(Exit::about(FAILED, config.display()))?;
    judge(config, &text, ANY_BLOCKS)
}

/// Copies a volume. A refusal names the file that it is about.
fn copied(from: &Path, to: &Path, how: How) -> Result<String, Exit> {
    if is_same(from, to) {
        return Err(Exit::new(REFUSED, format_args!("{}: the copy would be the volume itself", to.display())));
    }
    copy(from, to, how).map_err(|refusal| match refusal {
        Refusal::NotEmpty(_) | Refusal::IsVolume | Refusal::TooSmall(..) => refusal.exit(to),
        _ => refusal.exit(from),
    })
}

#[cfg(test)]
mod tests {
    use super::*;
    use std::time::Duration;

    #[test]
    fn words() {
        let read = |text: &str, allowed: &[&str]| {
            Words::read(&text.split_whitespace().map(OsString::from).collect::<Vec<_>>(), allowed)
        };
        let all = ["--config", "--size", "--lease", "--force", "--wait"];
        let words = read("v --size 8K --config c --force --lease 60", &all).ok().unwrap();
        assert_eq!((words.paths, words.config), (vec!["v".into()], Some("c".into())));
        assert_eq!((words.how.size, words.how.replaces, words.how.waits), (Some(8192), true, false));
        assert_eq!(words.how.lease, Some(Duration::from_secs(60)));
        for wrong in ["--size", "--size 1", "--config", "--lease", "--lease 0", "--lease 61", "--lease 1.5", "--no"] {
            assert!(read(&format!("v {wrong}"), &all).is_err(), "{wrong}");
        }
        assert!(read("v --force", &[]).is_err());
    }
}
