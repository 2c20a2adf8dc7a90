//! Queues of a session that end while it continues, or end it.

use super::admin::{one_of, Known};
use super::checker::{check, Act};
use super::proving::Proof;
use super::queue::{Command, Lost, Queue};
use super::wrong::{deallocation, range, DEALLOCATE};
use super::{below, now, was_stopped, Session, CC, CSTS, ENABLE, KEEP_ALIVE, READ, REFUSALS};
use crate::world::{self, MILLISECOND, SECOND};

/// CC with a normal shutdown, and the status of a command that comes out of turn.
const SHUTDOWN: u64 = 1 << 14;
const SEQUENCE: u16 = 0x0c;
/// Authentication Required, as the status of a queue whose host is not believed.
const UNPROVED: u16 = 0x191;

fn one_read() -> Command {
    Command { opcode: READ, nsid: 1, words: vec![0; 12], length: 512, ..Command::default() }
}

impl Session<'_> {
    /// Ends a queue in one of several ways; whether the session continues.
    pub fn change_queues(&mut self) -> Result<bool, Lost> {
        if below(2) == 0 {
            while !self.open.is_empty() {
                self.receive()?;
            }
        }
        match below(6) {
            0 => self.disconnect()?,
            1 => self.drop_queue()?,
            2 => self.reset()?,
            3 => self.shut_down()?,
            4 => self.exceed_queues()?,
            _ => {
                self.leave_admin()?;
                return Ok(false);
            }
        }
        Ok(true)
    }

    /// Connects queues that the controller does not have: they are refused.
    fn exceed_queues(&mut self) -> Result<(), Lost> {
        let qid = one_of(&[5, 9, 0xfff0]);
        let (_, status) = self.open_queue(qid)?;
        if status == 0 {
            self.complain(&format!("queue {qid} is connected"));
        }
        Ok(())
    }

    /// Opens the connection of an I/O queue; the status of its Connect, or that its host is not believed.
    fn open_queue(&mut self, qid: u16) -> Result<(Queue, u16), Lost> {
        let begun = now();
        let mut io = Queue::begin(self.address)?;
        // It may be cut before the target has answered anything.
        self.names.push(io.name());
        let connect = self.path.connect_of(qid, 0);
        let path = self.path;
        let status = io.agree(path.digests).and_then(|()| io.connect(&connect)).and_then(|it| match it.status {
            0 => path.prove(&mut io, &it).map(|proof| if proof == Proof::Done { 0 } else { UNPROVED }),
            status => Ok(status),
        });
        self.may_end |= status.is_err() && check(|it| it.was_crowded(begun));
        Ok((io, status?))
    }

    /// Takes a new I/O queue for the one that has ended; the old connection.
    fn replace(&mut self, io: Queue) -> Queue {
        self.give_up();
        check(|it| it.bound(Some(self.path.cntlid)));
        std::mem::replace(&mut self.io, io)
    }

    /// Disconnects the I/O queue, and connects another before the connection of the first is closed.
    fn disconnect(&mut self) -> Result<(), Lost> {
        let cid = self.io.disconnect()?;
        // It may end while data go that the target has asked for before, and then the answer is not read.
        let may_end = std::mem::replace(&mut self.may_end, true);
        loop {
            let completion = self.io.receive()?;
            if completion.cid == cid {
                break;
            }
            self.take(&completion)?;
        }
        self.may_end = may_end;
        let (io, status) = self.open_queue(1)?;
        if status != 0 {
            return self.refuse(&io, status, "Disconnect");
        }
        let _old = self.replace(io);
        self.rest(MILLISECOND * below(20) as u64)
    }

    /// Closes the connection of the I/O queue, and connects another once the target has noticed.
    fn drop_queue(&mut self) -> Result<(), Lost> {
        self.io.leave();
        let begun = now();
        loop {
            let (io, status) = self.open_queue(1)?;
            if status == 0 {
                drop(self.replace(io));
                return Ok(());
            }
            // The association is there as long as this is answered.
            self.admin.call(&Command { opcode: KEEP_ALIVE, ..Command::default() })?;
            if now() > begun + REFUSALS {
                return self.refuse(&io, status, "the end of its connection");
            }
            // A target that can't send notices no end.
            self.io.skip();
            world::pause(5 * MILLISECOND);
        }
    }

    /// Resets the controller, and enables it again. The connection of its I/O queue ends.
    fn reset(&mut self) -> Result<(), Lost> {
        self.admin.set_property(CC, 0)?;
        self.admin.requests.clear();
        self.known = Known::default();
        self.drain()?;
        self.admin.set_property(CC, ENABLE)?;
        if self.admin.property(CSTS)?.value & 1 == 0 {
            return Err(Lost::Broken("a controller is not ready after it was enabled".to_owned()));
        }
        let (io, status) = self.open_queue(1)?;
        if status != 0 {
            return self.refuse(&io, status, "a reset of its controller");
        }
        drop(self.replace(io));
        Ok(())
    }

    /// Shuts the controller down, which takes no commands then, and resets it.
    fn shut_down(&mut self) -> Result<(), Lost> {
        while !self.open.is_empty() {
            self.receive()?;
        }
        self.admin.set_property(CC, ENABLE | SHUTDOWN)?;
        let state = self.admin.property(CSTS)?.value;
        if state & 0xc != 8 {
            self.complain(&format!("CSTS is {state:#x} after a shutdown"));
        }
        let identify = Command { opcode: 0x06, words: vec![1, 0, 0, 0], length: 4096, ..Command::default() };
        for _ in 0..2 {
            let command = if below(2) == 0 { one_read() } else { deallocation(&[range(0, 1)], DEALLOCATE) };
            self.send(&command, Act::Wrong { wanted: vec![SEQUENCE] })?;
            self.receive()?;
            self.expect(&identify, &[SEQUENCE])?;
        }
        self.admin.set_property(CC, 0)?;
        self.admin.requests.clear();
        self.drain()?;
        // No page of 4 KiB: a fatal status.
        self.admin.set_property(CC, 1)?;
        let state = self.admin.property(CSTS)?.value;
        if state & 2 == 0 {
            self.complain(&format!("CSTS is {state:#x} after CC that is refused"));
        }
        self.expect(&identify, &[SEQUENCE])?;
        self.reset()
    }

    /// Closes the connection of the admin queue: that of the I/O queue ends too.
    fn leave_admin(&mut self) -> Result<(), Lost> {
        self.keep_alive = 0;
        self.admin.leave();
        self.drain()
    }

    /// Takes the answers that come until the connection of the I/O queue ends.
    fn drain(&mut self) -> Result<(), Lost> {
        loop {
            match self.receive() {
                Ok(()) => (),
                Err(Lost::Ended) => return Ok(()),
                Err(lost) => return Err(lost),
            }
        }
    }

    /// An I/O queue is refused: that has a reason if the association has ended meanwhile, if the target had no random
    /// number for this queue, or if it had other keys.
    fn refuse(&mut self, io: &Queue, status: u16, after: &str) -> Result<(), Lost> {
        self.rest(SECOND / 2)?;
        self.admin.call(&Command { opcode: KEEP_ALIVE, ..Command::default() })?;
        let may_fail = io.lacks_number || check(|it| it.keys.has_changed(self.path.host, self.begun));
        self.may_end |= may_fail;
        if may_fail || was_stopped(self.process, self.begun) {
            return Err(Lost::Ended);
        }
        Err(Lost::Broken(format!("its I/O queue is refused with status {status:x} after {after}")))
    }
}
