//! Which hosts are registered, as far as the answers say: each Reservation Report has to agree with some order.

/// A command that may register a host, or take a registration away, or a loss of power.
#[derive(Clone, Copy, Debug)]
struct Change {
    /// The number of the command.
    number: u64,
    start: u64,
    end: u64,
    /// Whether it has happened for sure, between `start` and `end`.
    is_certain: bool,
}

impl Change {
    /// Whether it has happened for sure after another may have, and before a time.
    fn follows(&self, other: &Change, time: u64) -> bool {
        self.is_certain && other.end < self.start && self.end < time
    }
}

#[derive(Clone, Debug, Default)]
struct Registered {
    put: Vec<Change>,
    taken: Vec<Change>,
}

/// The registrations of all hosts.
#[derive(Debug, Default)]
pub struct Registrations {
    hosts: Vec<Registered>,
    /// What takes all that does not persist.
    losses: Vec<Change>,
    persists: bool,
}

/// A registrant of a report.
#[derive(Clone, Copy, Debug, PartialEq, Eq)]
pub struct Entry {
    pub host: usize,
    pub is_holder: bool,
}

/// The registrants of a report with 128-bit identifiers.
pub fn entries_of(report: &[u8], key: u64) -> Vec<Entry> {
    let count = report.get(5..7).map_or(0, |it| usize::from(it[0]) | usize::from(it[1]) << 8);
    let key_of = |it: &[u8]| it[8..16].iter().rev().fold(0, |sum, byte| sum << 8 | u64::from(*byte));
    let all = report.get(64..).unwrap_or(&[]).chunks_exact(64).take(count);
    all.map(|it| Entry { host: key_of(it).wrapping_sub(key) as usize, is_holder: it[2] & 1 != 0 }).collect()
}

impl Registrations {
    pub fn new(persists: bool) -> Registrations {
        Registrations { persists, ..Registrations::default() }
    }

    fn of(&mut self, host: usize) -> &mut Registered {
        self.hosts.resize(self.hosts.len().max(host + 1), Registered::default());
        &mut self.hosts[host]
    }

    /// A command that began at a time may register a host.
    pub fn register(&mut self, host: usize, number: u64, start: u64) {
        self.of(host).put.push(Change { number, start, end: u64::MAX, is_certain: false });
    }

    /// A command may take the registration of a host away.
    pub fn take(&mut self, host: usize, number: u64, start: u64) {
        self.of(host).taken.push(Change { number, start, end: u64::MAX, is_certain: false });
    }

    /// A command has done nothing.
    pub fn deny(&mut self, number: u64) {
        for it in &mut self.hosts {
            it.put.retain(|it| it.number != number);
            it.taken.retain(|it| it.number != number);
        }
    }

    /// A command is executed by a time, or never; for certain if its answer shows that.
    pub fn bound(&mut self, number: u64, end: u64, is_certain: bool) {
        for it in self.hosts.iter_mut().flat_map(|it| it.put.iter_mut().chain(&mut it.taken)) {
            if it.number == number {
                (it.end, it.is_certain) = (it.end.min(end), is_certain);
            }
        }
    }

    /// Power may be lost in the subsystem from a time on; the number of that.
    pub fn lose(&mut self, start: u64) -> u64 {
        self.losses.push(Change { number: self.losses.len() as u64, start, end: u64::MAX, is_certain: false });
        self.losses.len() as u64 - 1
    }

    /// Power was lost by a time, for sure or perhaps.
    pub fn has_lost(&mut self, number: u64, end: u64, is_certain: bool) {
        let it = &mut self.losses[number as usize];
        (it.end, it.is_certain) = (end, is_certain);
    }

    /// Judges a report.
    pub fn judge(&mut self, entries: &[Entry], start: u64, end: u64) -> Result<(), String> {
        for host in 0..self.hosts.len() {
            let is_there = entries.iter().any(|it| it.host == host);
            if is_there && !self.may_be(host, start, end) || !is_there && self.must_be(host, start, end) {
                let text = if is_there { "a registrant" } else { "no registrant" };
                return Err(format!("host {host} is {text} from {start} to {end}: {:?}", self.hosts[host]));
            }
        }
        match entries.iter().find(|it| it.host >= self.hosts.len()) {
            Some(it) => Err(format!("host {} is a registrant, and has never registered", it.host)),
            None => Ok(()),
        }
    }

    fn may_be(&self, host: usize, start: u64, end: u64) -> bool {
        let it = &self.hosts[host];
        let losses = self.losses.iter().filter(|_| !self.persists);
        let ends: Vec<&Change> = it.taken.iter().chain(losses).collect();
        it.put.iter().any(|put| put.start < end && !ends.iter().any(|other| other.follows(put, start)))
    }

    fn must_be(&self, host: usize, start: u64, end: u64) -> bool {
        let it = &self.hosts[host];
        let losses = self.losses.iter().filter(|_| !self.persists);
        let ends: Vec<&Change> = it.taken.iter().chain(losses).collect();
        let stands = |put: &Change| !ends.iter().any(|other| other.end > put.start && other.start < end);
        it.put.iter().any(|put| put.is_certain && put.end < start && stands(put))
    }
}

#[cfg(test)]
mod tests {
    use super::*;

    fn judge(it: &mut Registrations, hosts: &[usize], start: u64) -> bool {
        let entries: Vec<Entry> = hosts.iter().map(|host| Entry { host: *host, is_holder: false }).collect();
        it.judge(&entries, start, start + 1).is_ok()
    }

    #[test]
    fn reports_agree_with_what_was_answered() {
        let mut it = Registrations::new(true);
        it.register(0, 1, 10);
        it.bound(1, 20, true);
        it.register(1, 2, 10);
        let loss = it.lose(22);
        it.has_lost(loss, 25, true);
        assert!(judge(&mut it, &[0], 30) && judge(&mut it, &[0, 1], 30) && !judge(&mut it, &[1], 30));
        it.take(0, 3, 40);
        it.bound(3, 50, true);
        assert!(judge(&mut it, &[0], 45) && judge(&mut it, &[], 45) && !judge(&mut it, &[0], 60));
        it.register(0, 4, 70);
        it.bound(4, 80, true);
        assert!(judge(&mut it, &[0], 90) && !judge(&mut it, &[], 90));
    }

    #[test]
    fn what_does_not_persist_is_lost() {
        let mut it = Registrations::new(false);
        it.register(0, 1, 10);
        it.bound(1, 20, true);
        let loss = it.lose(30);
        assert!(judge(&mut it, &[0], 25) && judge(&mut it, &[], 35) && judge(&mut it, &[0], 35));
        it.has_lost(loss, 40, true);
        assert!(!judge(&mut it, &[0], 50));
    }
}
