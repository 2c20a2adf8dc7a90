//! The command lines that serve nothing and need no volume: `--version`, `--where`, `--check` and `ctl`.

use crate::authentication::libcrypto;
use crate::configuration::{self, Configuration};
use crate::control;
use crate::exit::{Exit, BAD_COMMAND_LINE, FAILED, REFUSED};
use crate::storage;
use std::env;
use std::ffi::OsString;
use std::io::{self, Write};
use std::path::Path;

/// Replaces the number of blocks of an image: as many as CONFIG needs.
pub const ANY_BLOCKS: u64 = u64::MAX;

pub fn print(text: &str) -> Result<(), Exit> {
    io::stdout().write_all(text.as_bytes()).map_err(Exit::about(FAILED, "standard output"))
}

/// The version, and how the library was built, as this build records it.
pub fn version() -> String {
    let made = option_env!("NVMETCP_LIBRARY").unwrap_or("in an unrecorded way");
    let proofs = if libcrypto::AVAILABLE.is_ok() { "with --keys" } else { "without --keys: there was no libcrypto" };
    format!("nvmetcp {}\nover libnvmesim built {made}\nbuilt {proofs}\n", env!("CARGO_PKG_VERSION"))
}

/// `--where`: the path of this program.
pub fn print_where() -> Result<(), Exit> {
    let path = env::current_exe().map_err(Exit::about(FAILED, "the path of this program"))?;
    print(&format!("{}\n", path.display()))
}

/// `--check [--image FILE] CONFIG`: whether it would be refused, over the image if there is one.
pub fn check(words: &[OsString]) -> Result<(), Exit> {
    let (image, path) = match words {
        [path] => (None, Path::new(path)),
        [option, image, path] if option == "--image" => (Some(Path::new(image)), Path::new(path)),
        _ => return Err(Exit::new(BAD_COMMAND_LINE, "--check needs one CONFIG")),
    };
    let text = configuration::text_of(path).map_err(Exit::about(FAILED, path.display()))?;
    let blocks = match image {
        Some(image) => storage::blocks_of(image).map_err(Exit::about(FAILED, image.display()))?,
        None => ANY_BLOCKS,
    };
    judge(path, &text, blocks)?;
    print(&format!("{}: not refused\n", path.display()))
}

/// The configuration in a file's text, for an image of `blocks` blocks.
pub fn judge(path: &Path, text: &[u8], blocks: u64) -> Result<Configuration, Exit> {
    Configuration::read(text, blocks).map_err(|error| Exit::new(REFUSED, format_args!("{}:{error}", path.display())))
}

/// `ctl SOCKET LINE`.
pub fn control_line(words: &[OsString]) -> Result<(), Exit> {
    let (socket, line) = match words {
        [socket, line @ ..] if !line.is_empty() => (Path::new(socket), line.join(" ".as_ref())),
        _ => return Err(Exit::new(BAD_COMMAND_LINE, "ctl needs SOCKET and LINE")),
    };
    let answer = control::ask(socket, &line.to_string_lossy()).map_err(Exit::about(FAILED, socket.display()))?;
    print(&answer)?;
    if answer.starts_with('!') {
        let text = "the control line is unknown, or its object does not exist".to_owned();
        return Err(Exit::new(REFUSED, text));
    }
    Ok(())
}
