//! `nvmetcp expand`: what `--script` would have kept instead of a recording, the script or its transcript, batch by
//! batch.

use crate::exit::{Exit, BAD_COMMAND_LINE, FAILED, REFUSED};
use crate::files::outputs;
use crate::numbers::to_u64;
use crate::recording::frame::{Broken, Frames};
use crate::recording::lines::Lines;
use crate::recording::run::Events;
use crate::recording::{read_batch, MAGIC, VERSION};
use std::error::Error;
use std::ffi::OsString;
use std::fmt;
use std::fs::File;
use std::io::{self, Read, Write};
use std::path::{Path, PathBuf};

/// More than the digits of a version and their line feed.
const VERSION_LENGTH: usize = 12;

/// Why a recording is not expanded, or not to its end.
#[derive(Debug)]
enum Refusal {
    NotRecording,
    Newer(String),
    /// The frame at a place is whole, and has no events or no beginning of a script.
    Unreadable(u64),
    /// The number of events before the broken frame.
    Broken(Broken, u64),
}

impl fmt::Display for Refusal {
    fn fmt(&self, f: &mut fmt::Formatter<'_>) -> fmt::Result {
        match self {
            Refusal::NotRecording => f.write_str("not a recording"),
            Refusal::Newer(version) => write!(f, "newer version {version}: this program reads version {VERSION}"),
            Refusal::Unreadable(place) => write!(f, "unreadable frame at byte {place}: its digests are right"),
            Refusal::Broken(broken @ Broken::System(_), _) => broken.fmt(f),
            Refusal::Broken(broken, events) => write!(f, "{broken}; {events} events come before it"),
        }
    }
}

impl Error for Refusal {}

impl Refusal {
    fn exit(&self, path: &Path) -> Exit {
        let status = if let Refusal::Broken(Broken::System(_), _) = self { FAILED } else { REFUSED };
        Exit::new(status, format_args!("{}: {self}", path.display()))
    }
}

/// A recording that is read.
struct Source<R> {
    frames: Frames<R>,
    /// The beginning of its script.
    head: Vec<u8>,
    /// The last batch, and the number of events up to its end.
    batch: Events,
    events: u64,
}

impl<R: Read> Source<R> {
    /// Reads the beginning of a recording.
    fn open(mut input: R) -> Result<Source<R>, Refusal> {
        let length = read_version(&mut input)?;
        let mut frames = Frames::new(input, length);
        let head = match frames.next().map_err(|broken| Refusal::Broken(broken, 0))? {
            Some((0, head)) => head.to_vec(),
            Some(_) => return Err(Refusal::Unreadable(length)),
            None => return Err(Refusal::Broken(Broken::Torn { place: length, count: 0, events: None }, 0)),
        };
        Ok(Source { frames, head, batch: Events::default(), events: 0 })
    }

    /// Reads the next batch. `None` at the end.
    fn next(&mut self) -> Result<Option<&Events>, Refusal> {
        let (count, content) = match self.frames.next().map_err(|broken| Refusal::Broken(broken, self.events))? {
            Some(frame) => frame,
            None => return Ok(None),
        };
        if !read_batch(count, content, &mut self.batch) {
            return Err(Refusal::Unreadable(self.frames.place()));
        }
        self.events += to_u64(count);
        Ok(Some(&self.batch))
    }
}

/// Reads the first line of a recording, and returns its length.
fn read_version(input: &mut impl Read) -> Result<u64, Refusal> {
    let system = |error| Refusal::Broken(Broken::System(error), 0);
    let mut line = Vec::new();
    while !line.ends_with(b"\n") && line.len() < MAGIC.len() + VERSION_LENGTH {
        if input.by_ref().take(1).read_to_end(&mut line).map_err(system)? == 0 {
            break;
        }
    }
    let digits = line.strip_prefix(MAGIC).and_then(|rest| rest.strip_suffix(b"\n"));
    let version = digits.and_then(|digits| std::str::from_utf8(digits).ok()).unwrap_or_default();
    match version.parse::<u32>() {
        Ok(VERSION) => Ok(to_u64(line.len())),
        Ok(number) if number > VERSION => Err(Refusal::Newer(version.to_owned())),
        _ => Err(Refusal::NotRecording),
    }
}

/// The words of the command.
#[derive(Debug, Default, PartialEq, Eq)]
struct Words {
    is_transcript: bool,
    replaces: bool,
    recording: PathBuf,
    output: Option<PathBuf>,
}

impl Words {
    fn read(words: &[OsString]) -> Option<Words> {
        let (mut read, mut paths) = (Words::default(), Vec::new());
        for word in words {
            match word.to_str() {
                Some("--transcript") => read.is_transcript = true,
                Some("--force") => read.replaces = true,
                Some(option) if option.starts_with('-') => return None,
                _ => paths.push(PathBuf::from(word)),
            }
        }
        let mut paths = paths.into_iter();
        read.recording = paths.next()?;
        read.output = paths.next();
        paths.next().is_none().then_some(read)
    }

    /// The output, and its name. It is begun when the recording has shown that it is one.
    fn open(&self) -> Result<(Box<dyn Write>, String), Exit> {
        let path = match &self.output {
            Some(path) => path,
            None => return Ok((Box::new(io::stdout()), "standard output".to_owned())),
        };
        let name = path.display().to_string();
        if outputs::is_same(path, &self.recording) {
            return Err(Exit::new(FAILED, format_args!("{name}: it would be the recording and its expansion")));
        }
        let file = outputs::create(path, self.replaces, false).map_err(Exit::about(FAILED, &name))?;
        Ok((Box::new(file), name))
    }
}

/// `expand [--transcript] [--force] FILE [OUTPUT]`. Everything before the first frame that is broken is expanded.
pub fn expand(words: &[OsString]) -> Result<(), Exit> {
    let wrong = || "expand needs FILE, and takes OUTPUT; see --help".to_owned();
    let words = Words::read(words).ok_or_else(|| Exit::new(BAD_COMMAND_LINE, wrong()))?;
    let path = &words.recording;
    let file = File::open(path).map_err(Exit::about(FAILED, path.display()))?;
    let mut source = Source::open(file).map_err(|refusal| refusal.exit(path))?;
    let (mut output, name) = words.open()?;
    let mut put = |text: &[u8]| output.write_all(text).map_err(Exit::about(FAILED, &name));
    if !words.is_transcript {
        put(&source.head)?;
    }
    let mut lines = Lines::default();
    while let Some(batch) = source.next().map_err(|refusal| refusal.exit(path))? {
        lines.make(batch);
        let script = lines.lines().map_err(Exit::about(REFUSED, path.display()))?;
        put(if words.is_transcript { lines.gave() } else { script })?;
    }
    output.flush().map_err(Exit::about(FAILED, &name))
}

#[cfg(test)]
mod tests {
    use super::*;
    use crate::fault::Fault;
    use crate::recording::run::{Event, Run};
    use crate::recording::Recording;
    use nvmesim::Fetched;
    use std::fs;

    /// The bytes of a recording with batches of these stores, each after a fetch.
    fn recorded(name: &str, stores: &[Vec<u8>]) -> Vec<u8> {
        let path = std::env::temp_dir().join(format!("nvmetcp-expand-{name}-{}", std::process::id()));
        let recording = Recording::new(File::create(&path).unwrap(), "head\nstart\n").unwrap();
        let mut run = Run::new("recording", recording, Fault::Recording).unwrap();
        for bytes in stores {
            run.fetched(1, 2, Fetched::Idle);
            run.stored(1, 7, bytes).unwrap();
            run.begin(bytes.len() % 2 == 0).unwrap();
        }
        run.sync().unwrap();
        drop(run);
        let bytes = fs::read(&path).unwrap();
        fs::remove_file(path).unwrap();
        bytes
    }

    #[test]
    fn a_recording_has_its_events_in_their_order() {
        let stores: Vec<Vec<u8>> = (1..60).map(|it| vec![it as u8; 5000 * it % 200_000 + it]).collect();
        let bytes = recorded("order", &stores);
        let mut source = Source::open(&bytes[..]).ok().unwrap();
        assert_eq!(source.head, b"head\nstart\n");
        let mut read = Events::default();
        while let Some(batch) = source.next().ok().unwrap() {
            read.list.extend(&batch.list);
            read.stored.extend(&batch.stored);
        }
        assert_eq!((source.events, read.list.len()), (118, 118));
        assert!(read.stored == stores.concat());
        let stored = |bytes: &Vec<u8>| Event::Stored { cntlid: 1, address: 7, count: bytes.len() };
        let fetched = Event::Fetched { cntlid: 1, qid: 2, fetched: Fetched::Idle };
        assert!(read.list == stores.iter().flat_map(|it| [fetched, stored(it)]).collect::<Vec<_>>());
    }

    #[test]
    fn refusals_have_their_names() {
        let bytes = recorded("names", &[vec![1; 10], vec![2; 10]]);
        let line = bytes.iter().position(|byte| *byte == b'\n').unwrap();
        let told = |bytes: &[u8]| match Source::open(bytes) {
            Err(refusal) => refusal.to_string(),
            Ok(mut source) => loop {
                match source.next() {
                    Ok(Some(_)) => (),
                    Ok(None) => break String::new(),
                    Err(refusal) => break refusal.to_string(),
                }
            },
        };
        assert_eq!(told(&bytes), "");
        assert_eq!(told(b""), "not a recording");
        assert_eq!(told(&bytes[..line]), "not a recording");
        for (version, refusal) in [
            ("2", "newer version 2: this program reads version 1"),
            ("0", "not a recording"),
            ("-1", "not a recording"),
        ] {
            assert_eq!(told(&[MAGIC, version.as_bytes(), &bytes[line..]].concat()), refusal);
        }
        let cut = told(&bytes[..bytes.len() - 1]);
        assert!(
            cut.starts_with("torn end: left out the last ") && cut.ends_with(", and 2 events; 2 events come before it")
        );
        let mut damaged = bytes.clone();
        damaged[line + 30] ^= 1;
        assert!(told(&damaged).starts_with("damaged frame at byte 20: a whole one follows at byte "));
    }
}
