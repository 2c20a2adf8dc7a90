//! Reservation notifications: which controllers are notified of a reservation command, and what each keeps for its
//! host.

use crate::layout;
use crate::{checked, Refusal, Subsystem};

/// The action of a reservation command, as far as notices differ.
#[derive(Clone, Copy, Debug, PartialEq, Eq)]
pub enum Action {
    /// Each action of Reservation Register.
    Register = 0,
    /// Acquire of Reservation Acquire.
    Acquire = 1,
    /// Preempt, and Preempt and Abort, of Reservation Acquire.
    Preempt = 2,
    /// Release of Reservation Release.
    Release = 3,
    /// Clear of Reservation Release.
    Clear = 4,
}

impl Action {
    /// Its number in `nvmesim.h`.
    #[allow(clippy::as_conversions)] // An enum has no other conversion.
    fn number(self) -> u32 {
        self as u32
    }
}

/// A reservation command that has succeeded.
#[derive(Clone, Copy, Debug, PartialEq, Eq)]
pub struct Change {
    /// The namespace.
    pub nsid: u32,
    /// The action of the command.
    pub action: Action,
    /// The controller that has executed it.
    pub issuer: u16,
}

/// How the reservation of a namespace concerned the host of a controller when `Subsystem::view` was called.
#[derive(Clone, Copy)]
pub struct HostView {
    view: layout::HostView,
}

/// The reservation notifications of a controller: the mask of each namespace, and at most 64 that its host has not read.
///
/// ```
/// use nvmesim::{Notices, Refusal};
///
/// let mut notices = Notices::default();
/// assert_eq!(notices.set_mask(1, 0xff), Ok(()));
/// assert_eq!(notices.set_mask(9, 0xff), Err(Refusal::NoNamespace));
/// assert_eq!((notices.mask(1), notices.mask(2)), (0xe, 0));
/// assert_eq!((notices.available(), notices.page()), (0, [0; 64]));
/// ```
#[derive(Clone)]
pub struct Notices {
    notices: layout::Notices,
}

impl Default for Notices {
    /// A controller after a reset: nothing is masked, and there is no notice.
    fn default() -> Self {
        let nothing = layout::Notice { count: 0, nsid: 0, kind: 0 };
        Notices { notices: layout::Notices { count: 0, places: [nothing; 64], masks: [0; 8], kept: 0 } }
    }
}

impl Notices {
    /// Reservation Notification Mask of a namespace; 0 if there is no such namespace.
    #[must_use]
    pub fn mask(&self, nsid: u32) -> u32 {
        self.notices.mask(nsid)
    }

    /// Sets Reservation Notification Mask of a namespace, by double word 11 of the command.
    ///
    /// # Errors
    ///
    /// [`Refusal::NoNamespace`].
    pub fn set_mask(&mut self, nsid: u32, dw11: u32) -> Result<(), Refusal> {
        checked(self.notices.set_mask(nsid, dw11))
    }

    /// The number of notices that were not taken.
    #[must_use]
    pub fn available(&self) -> u32 {
        self.notices.available()
    }

    /// The Reservation Notification log page: the oldest notice, or zeros.
    #[must_use]
    pub fn page(&self) -> [u8; 64] {
        self.notices.page()
    }

    /// Removes the oldest notice, if there is one.
    pub fn take(&mut self) {
        self.notices.take();
    }
}

impl Subsystem<'_> {
    /// How the reservation of a namespace concerns the host of a controller now.
    ///
    /// # Errors
    ///
    /// [`Refusal::NoController`] or [`Refusal::NoNamespace`].
    pub fn view(&mut self, nsid: u32, cntlid: u16) -> Result<HostView, Refusal> {
        let view = self.handle.view(nsid, cntlid);
        checked(view.what)?;
        Ok(HostView { view })
    }

    /// Adds the notice that a controller gets of a command that has just succeeded, if it gets one. `before` is the
    /// view of its host before the command.
    ///
    /// # Errors
    ///
    /// [`Refusal::NoController`] or [`Refusal::NoNamespace`]: nothing has changed.
    pub fn notify(
        &mut self,
        notices: &mut Notices,
        cntlid: u16,
        change: Change,
        before: &HostView,
    ) -> Result<(), Refusal> {
        let change = layout::Change { nsid: change.nsid, action: change.action.number(), issuer: change.issuer };
        checked(self.handle.notify(&mut notices.notices, cntlid, &change, &before.view))
    }
}
