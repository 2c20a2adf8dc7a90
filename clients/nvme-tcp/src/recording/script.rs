//! The run as a script and its transcript, which two threads write: one makes lines, the other writes.

use crate::configuration::Configuration;
use crate::fault::Fault;
use crate::recording::kept::Kept;
use crate::recording::lines::Lines;
use crate::recording::pipeline::Piece;
use crate::recording::run::{Events, Run, EARLY};
use std::fs::File;
use std::io;

/// The beginning of the script of a configuration, up to the first event. A first comment names the option that the
/// programs need, if they need one.
pub fn head_of(configuration: &Configuration) -> String {
    let option = if configuration.has_large_namespace() { "# nvmesim --any-size\n" } else { "" };
    format!("{option}{}start\n", configuration.lines)
}

/// Begins to keep a run as a script and its transcript, in these files.
pub fn keep(files: [File; 2], configuration: &Configuration) -> io::Result<Run> {
    let kept = Kept::new(files, head_of(configuration).as_bytes())?;
    Run::new("script", kept, Fault::Script).map(|it| it.early(EARLY))
}

impl Piece<Kept> for Events {
    type Made = Lines;

    /// A stored byte has two digits.
    fn size(&self) -> usize {
        2 * self.length()
    }

    fn make(&self, made: &mut Lines) {
        made.make(self);
    }

    fn write_first(&self, made: &Lines, kept: &mut Kept) -> io::Result<()> {
        kept.write_first(made.lines()?)
    }

    /// If there are none, the files give back disk space that they have reserved.
    fn write(&mut self, made: &Lines, next: Option<&Lines>, kept: &mut Kept) -> io::Result<()> {
        kept.write(made.lines()?, made.gave(), next.map(Lines::lines).transpose()?)?;
        if self.list.is_empty() {
            kept.give_back();
        }
        self.clear();
        Ok(())
    }
}
