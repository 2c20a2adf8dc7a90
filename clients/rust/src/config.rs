//! The configuration of a subsystem, as the library takes it.

use crate::numbers;

/// A controller, and the host that it belongs to.
#[repr(C)]
#[derive(Clone, Copy, Debug, PartialEq, Eq)]
pub struct Controller {
    host_low: u64,
    host_high: u64,
    cntlid: u16,
    /// Whether its line of a script says `raw`. Opening ignores it: each host is raw here.
    pub raw: bool,
}

impl Controller {
    /// The controller with this identifier, of the host with this identifier, which is not 0. The k-th controller of a
    /// configuration, from 1, has the identifier k.
    #[must_use]
    pub const fn new(cntlid: u16, host: u128) -> Self {
        let (host_low, host_high) = numbers::halves(host);
        Controller { host_low, host_high, cntlid, raw: false }
    }

    /// Its identifier, 1 to 16.
    #[must_use]
    pub const fn cntlid(&self) -> u16 {
        self.cntlid
    }

    /// The identifier of its host.
    #[must_use]
    pub const fn host(&self) -> u128 {
        numbers::joined(self.host_low, self.host_high)
    }
}

/// A namespace, whose blocks have 512 bytes.
#[repr(C)]
#[derive(Clone, Copy, Debug, PartialEq, Eq)]
pub struct Namespace {
    /// Its size in blocks, at least 1.
    pub blocks: u64,
    /// The namespace identifier, 1 to 8.
    pub nsid: u32,
    /// Whether more than one controller may be attached to it at a time.
    pub shared: bool,
}

/// A controller that is attached to a namespace.
#[repr(C)]
#[derive(Clone, Copy, Debug, PartialEq, Eq)]
pub struct Attachment {
    /// The namespace identifier, 1 to 8.
    pub nsid: u32,
    /// The controller identifier, 1 to 16.
    pub cntlid: u16,
}

/// The controllers and namespaces of a subsystem, and which are attached to which.
#[derive(Clone, Debug, Default, PartialEq, Eq)]
pub struct Config {
    /// The controllers, in the order of their identifiers, at most 16.
    pub controllers: Vec<Controller>,
    /// The namespaces, at most 8, which occupy the blocks one after the other.
    pub namespaces: Vec<Namespace>,
    /// The attachments, at most 128.
    pub attached: Vec<Attachment>,
}
