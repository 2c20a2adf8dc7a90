//! What the driver's calls ask for, done on a device.

use crate::driver::{Action, BringUp, Driver, Limits, NextCompletion, Outcome, Ticket, BUFFER};
use crate::fault::{Fault, Status};
use std::time::{Duration, Instant};

const CAP: u64 = 0x00;
const CSTS: u64 = 0x1c;
const DOORBELLS: u64 = 0x1000;
const QUEUES: u32 = 2;
/// How often the status is read while a request waits: that takes a device a microsecond.
const LOOK: Duration = Duration::from_millis(1);

/// A device: memory of [`WINDOW`](crate::WINDOW) bytes that the controller reaches too, from address 0, and its
/// registers. Addresses, offsets and lengths are in bytes, and multiples of 4. The controller may change its memory at
/// any moment.
pub trait Device {
    /// Stores bytes in the memory.
    fn store(&mut self, address: u64, bytes: &[u8]);
    /// Loads bytes, before any that is loaded later.
    fn load(&mut self, address: u64, bytes: &mut [u8]);
    /// Writes a register, after all that was stored.
    fn write32(&mut self, offset: u64, value: u32);
    /// Reads a register.
    fn read32(&mut self, offset: u64) -> u32;
    /// The number of bytes of registers.
    fn registers(&self) -> u64;
    /// Is called while the port waits.
    fn wait(&mut self) {
        std::hint::spin_loop();
    }
}

/// The driver on a device.
pub struct Port<D> {
    driver: Driver,
    device: D,
    limits: Limits,
    buffer: Vec<u8>,
    copy: Vec<u8>,
}

impl<D: Device> Port<D> {
    /// Judges the capabilities, resets the controller, brings it up and asks about it.
    ///
    /// # Errors
    ///
    /// Why the device is not used: a fault of [`Driver::capabilities`], [`Port::reset`], [`Port::bring_up`] or
    /// [`Port::answer`]; [`Fault::Outside`] if its registers end before the doorbells; [`Fault::NoMemory`].
    pub fn start(mut device: D) -> Result<Port<D>, Fault> {
        let mut driver = Driver::open(Ticket(1))?;
        let cap = u64::from(device.read32(CAP)) | u64::from(device.read32(CAP + 4)) << 32;
        let limits = driver.capabilities(cap)?;
        if DOORBELLS + 4 * u64::from(limits.stride) > device.registers() {
            return Err(Fault::Outside);
        }
        let mut port = Port { driver, device, limits, buffer: vec![0; BUFFER], copy: vec![0; BUFFER] };
        port.reset()?;
        port.bring_up()?;
        let ticket = port.driver.ask(0)?;
        port.answer(ticket, limits.timeout)?;
        Ok(port)
    }

    /// The driver, whose requests [`Port::send`] sends and [`Port::answer`] waits for.
    pub fn driver(&mut self) -> &mut Driver {
        &mut self.driver
    }

    /// The device.
    pub fn device(&mut self) -> &mut D {
        &mut self.device
    }

    /// The data of the last answer, and what an earlier one had after them.
    pub fn data(&self) -> &[u8] {
        &self.buffer
    }

    /// Disables the controller. If that fails, the controller may still change its memory.
    ///
    /// # Errors
    ///
    /// [`Fault::Removed`], [`Fault::Fatal`] or [`Fault::TimedOut`].
    pub fn reset(&mut self) -> Result<(), Fault> {
        self.driver.reset()?;
        self.perform()?;
        self.wait_for_status()
    }

    /// Enables the controller after a reset, and creates the queues.
    ///
    /// # Errors
    ///
    /// Those of [`Driver::bring_up`] and [`Driver::status`].
    pub fn bring_up(&mut self) -> Result<(), Fault> {
        loop {
            let how = self.driver.bring_up();
            self.perform()?;
            match how? {
                BringUp::Up => return Ok(()),
                BringUp::NeedsStatus => self.wait_for_status()?,
                BringUp::NeedsCompletion => self.report_completion()?,
            }
        }
    }

    /// Shuts the controller down.
    ///
    /// # Errors
    ///
    /// [`Fault::NotUp`], or those of [`Driver::status`].
    pub fn shutdown(&mut self) -> Result<(), Fault> {
        self.driver.shutdown()?;
        self.perform()?;
        self.wait_for_status()
    }

    /// Sends all requests that were placed.
    ///
    /// # Errors
    ///
    /// [`Fault::NotUp`] or [`Fault::Expired`].
    pub fn send(&mut self) -> Result<(), Fault> {
        self.perform()?;
        self.driver.ring()?;
        self.perform()
    }

    /// The next answer, if there is one: looks at both queues once.
    ///
    /// # Errors
    ///
    /// [`Fault::NotUp`], or [`Fault::UnknownCommand`] if a completion answers no request: reset the controller then.
    pub fn poll(&mut self) -> Result<Option<Outcome>, Fault> {
        for queue in 0..QUEUES {
            let next = self.driver.next_completion(queue)?;
            if let Some(entry) = self.completion(next) {
                let (address, length) = self.driver.store_completion(queue, &entry)?;
                let data = self.copy.get_mut(..length).ok_or(Fault::Outside)?;
                if length != 0 {
                    self.device.load(address, data);
                    self.driver.store_data(address, data)?;
                }
                break;
            }
        }
        let outcome = self.driver.poll(&mut self.buffer);
        self.perform()?;
        outcome
    }

    /// Sends a request that was placed, and waits for its answer: its data, or why there is none. Answers to others are
    /// delivered to nobody. A request without an answer in time expires, and one whose controller is not up any more.
    ///
    /// # Errors
    ///
    /// [`Fault::Answered`] with any status but a success; [`Fault::NoAnswerInTime`], or a fault of [`Driver::health`],
    /// and the request has expired: reset the controller. Those of [`Port::send`] and [`Port::poll`].
    pub fn answer(&mut self, ticket: Ticket, time: Duration) -> Result<&[u8], Fault> {
        self.send()?;
        let (begun, mut looked) = (Instant::now(), Duration::ZERO);
        loop {
            match self.poll()? {
                Some(Outcome::Done { ticket: own, status, length, .. }) if own == ticket => {
                    return match status {
                        Status::SUCCESS => Ok(&self.buffer[..length]),
                        status => Err(Fault::Answered(status)),
                    };
                }
                Some(_) => {}
                None => self.device.wait(),
            }
            let waited = begun.elapsed();
            let fault = if waited >= time {
                Some(Fault::NoAnswerInTime)
            } else if waited >= looked + LOOK {
                looked = waited;
                Driver::health(self.device.read32(CSTS)).err()
            } else {
                None
            };
            if let Some(fault) = fault {
                self.driver.expire(ticket)?;
                return Err(fault);
            }
        }
    }

    /// Performs the actions of the driver's last call.
    fn perform(&mut self) -> Result<(), Fault> {
        for action in self.driver.actions() {
            match action {
                Action::Write { offset, value } => self.device.write32(offset, value),
                Action::Store { length: 0, .. } => {}
                Action::Store { address, length } => {
                    let bytes = self.copy.get_mut(..length).ok_or(Fault::Outside)?;
                    self.driver.load(address, bytes)?;
                    self.device.store(address, bytes);
                }
            }
        }
        Ok(())
    }

    fn wait_for_status(&mut self) -> Result<(), Fault> {
        let begun = Instant::now();
        loop {
            let csts = self.device.read32(CSTS);
            if self.driver.status(csts, begun.elapsed())? {
                return Ok(());
            }
            self.device.wait();
        }
    }

    /// Copies a completion, if its phase tag is the expected one. The controller writes the tag last, or with the rest, so
    /// the double word that has it is loaded first.
    fn completion(&mut self, next: NextCompletion) -> Option<[u8; 16]> {
        let mut entry = [0; 16];
        self.device.load(next.address + 12, &mut entry[12..]);
        if (entry[14] & 1 == 1) != next.phase {
            return None;
        }
        self.device.load(next.address, &mut entry[..12]);
        Some(entry)
    }

    /// Reports the next completion of the Admin Queue to a bring-up; zeros if none comes in time.
    fn report_completion(&mut self) -> Result<(), Fault> {
        let (begun, next) = (Instant::now(), self.driver.next_completion(0)?);
        loop {
            let found = self.completion(next);
            if found.is_some() || begun.elapsed() >= self.limits.timeout {
                return self.driver.report_completion(&found.unwrap_or_default());
            }
            self.device.wait();
        }
    }
}
