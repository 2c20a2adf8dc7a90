//! The subsystem, event by event: each is a call of the library, and is noted if the run is kept.

use crate::fault::Outcome;
use crate::nvme::entry::SubmissionEntry;
use crate::recording::run::Run;
use nvmesim::{
    Brought, Change, Completed, Executed, Fetched, HostView, LineError, Need, Notices, Refusal, Reservation, Subsystem,
};

/// Offset of the first doorbell. A submission queue's tail doorbell has 8 bytes for each queue before it, and a
/// completion queue's head doorbell comes 4 bytes after that.
const DOORBELLS: u64 = 0x1000;

/// The subsystem of this process.
pub struct Machine<'a> {
    subsystem: Subsystem<'a>,
    run: Option<Run>,
}

impl<'a> Machine<'a> {
    pub fn new(subsystem: Subsystem<'a>, run: Option<Run>) -> Self {
        Machine { subsystem, run }
    }

    pub fn store(&mut self, cntlid: u16, address: u64, bytes: &[u8]) -> Outcome<()> {
        self.subsystem.store(cntlid, address, bytes)?;
        if let Some(run) = &mut self.run {
            run.stored(cntlid, address, bytes)?;
        }
        Ok(())
    }

    pub fn write32(&mut self, cntlid: u16, offset: u64, value: u32) -> Outcome<()> {
        self.subsystem.write32(cntlid, offset, value)?;
        if let Some(run) = &mut self.run {
            run.wrote32(cntlid, offset, value);
        }
        Ok(())
    }

    /// The host of a controller places a command with these data, stored at an address; whether the controller has
    /// fetched it. If it has not, nothing has happened.
    pub fn place(
        &mut self,
        cntlid: u16,
        qid: u16,
        entry: &SubmissionEntry,
        (data_at, data): (u64, &[u8]),
    ) -> Outcome<bool> {
        let placed = match self.subsystem.place(cntlid, qid, entry.bytes(), data_at, data) {
            Err(Refusal::NotReady | Refusal::NoQueue | Refusal::Busy) => return Ok(false),
            placed => placed?,
        };
        if let Some(run) = &mut self.run {
            run.stored(cntlid, placed.entry_at, entry.bytes())?;
            if !data.is_empty() {
                run.stored(cntlid, data_at, data)?;
            }
            run.wrote32(cntlid, DOORBELLS + 8 * u64::from(qid), placed.tail);
            run.fetched(cntlid, qid, Fetched::Took);
        }
        Ok(true)
    }

    /// Executes the i-th fetched command of a controller, whose host then consumes the completion.
    pub fn complete(&mut self, cntlid: u16, i: usize) -> Outcome<Executed> {
        let completed = self.subsystem.complete(cntlid, i)?;
        Ok(self.note(cntlid, i, completed))
    }

    /// The same over blocks of the disk that are brought in a room. It also returns how many of the room's first blocks
    /// belong on the disk.
    pub fn complete_over(
        &mut self,
        cntlid: u16,
        i: usize,
        room: &mut [u8],
        brought: Brought,
    ) -> Outcome<(Executed, u64)> {
        let (completed, at_hand) = self.subsystem.complete_over(cntlid, i, room, brought)?;
        Ok((self.note(cntlid, i, completed), at_hand))
    }

    /// Notes the events of a completed command.
    fn note(&mut self, cntlid: u16, i: usize, completed: Completed) -> Executed {
        let Completed { executed, cqid, head, .. } = completed;
        if let Some(run) = &mut self.run {
            run.executed(cntlid, i, executed);
            if let Executed::Posted(_) = executed {
                run.wrote32(cntlid, DOORBELLS + 8 * u64::from(cqid) + 4, head);
            }
        }
        executed
    }

    pub fn power_cycle(&mut self) {
        self.subsystem.power_cycle();
        if let Some(run) = &mut self.run {
            run.cycled();
        }
    }

    /// What the i-th fetched command of a controller needs of the blocks if it is executed now; nothing if there is no
    /// such command. The execution reads, writes and flushes nothing else: that is proved.
    pub fn need(&mut self, cntlid: u16, i: usize) -> Outcome<Need> {
        Ok(self.subsystem.need(cntlid, i)?.unwrap_or(Need::Nothing))
    }

    /// Reads a register. That changes nothing, so it is no event of a run.
    pub fn read32(&mut self, cntlid: u16, offset: u64) -> Outcome<u32> {
        Ok(self.subsystem.read32(cntlid, offset)?)
    }

    /// Looks at the memory of a controller's host.
    pub fn load(&mut self, cntlid: u16, address: u64, bytes: &mut [u8]) -> Outcome<()> {
        Ok(self.subsystem.load(cntlid, address, bytes)?)
    }

    /// The reservation and the write protection of a namespace; nothing if there is no such namespace.
    pub fn reservation(&mut self, nsid: u32) -> Option<Reservation> {
        self.subsystem.reservation(nsid).ok()
    }

    /// How the reservation of a namespace concerns the host of a controller; nothing if one of them does not exist.
    pub fn view(&mut self, nsid: u32, cntlid: u16) -> Option<HostView> {
        self.subsystem.view(nsid, cntlid).ok()
    }

    /// Adds the notice that a controller gets of a reservation command, if it gets one.
    pub fn notify(&mut self, notices: &mut Notices, cntlid: u16, change: Change, before: HostView) -> Outcome<()> {
        Ok(self.subsystem.notify(notices, cntlid, change, &before)?)
    }

    /// Answers the query with this number, by the text of a session.
    pub fn look(&mut self, number: u64, line: &str) -> Result<String, LineError> {
        self.subsystem.look(number, line)
    }

    pub fn is_attached(&mut self, cntlid: u16, nsid: u32) -> bool {
        self.subsystem.is_attached(cntlid, nsid)
    }

    /// Records whether only one connection is served.
    pub fn serve_alone(&mut self, is_alone: bool) {
        if let Some(run) = &mut self.run {
            run.is_alone = is_alone;
        }
    }

    /// Writes the noted events, or begins to; the number of batches after which they are written. With `is_awaited` the
    /// caller waits for that next.
    pub fn begin_run(&mut self, is_awaited: bool) -> Outcome<u64> {
        self.run.as_mut().map_or(Ok(0), |it| it.begin(is_awaited))
    }

    /// Is called ten times a second: the files of an idle run release the disk space that they have reserved.
    pub fn rest_run(&mut self) -> Outcome<()> {
        self.run.as_mut().map_or(Ok(()), Run::rest)
    }

    /// Syncs the files of the run.
    pub fn sync_run(&mut self) -> Outcome<()> {
        self.run.as_mut().map_or(Ok(()), Run::sync)
    }

    /// Number of batches of the run that are written.
    pub fn run_done(&self) -> Outcome<u64> {
        self.run.as_ref().map_or(Ok(0), Run::done)
    }

    /// Waits until `count` batches of the run are written.
    pub fn wait_for_run(&self, count: u64) -> Outcome<()> {
        self.run.as_ref().map_or(Ok(()), |it| it.wait_for(count))
    }
}
