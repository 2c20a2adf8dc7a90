//! Who may connect: `--keys` binds hosts to secrets, `--allow` to addresses, and `--trust-network` trusts anyone who
//! reaches the target.

use crate::target::uuid;
use crate::transport::listening::plain;
use std::error::Error;
use std::fmt;
use std::net::{IpAddr, SocketAddr};

/// Why the options that decide who may connect are refused.
#[derive(Clone, Debug, PartialEq, Eq)]
pub enum AdmissionError {
    /// A host of `--allow`, and those of the controllers.
    UnknownHost(u128, Vec<u128>),
    /// An address beyond loopback, and the hosts that anyone could claim to be there.
    Open(SocketAddr, Vec<u128>),
}

impl fmt::Display for AdmissionError {
    fn fmt(&self, f: &mut fmt::Formatter<'_>) -> fmt::Result {
        match self {
            AdmissionError::UnknownHost(host, known) => {
                write!(f, "--allow {}: no controller is of this host; there are those of {}", uuid(*host), list(known))
            }
            AdmissionError::Open(address, hosts) => write!(
                f,
                "--listen {address}: any machine that reaches it could claim to be {}; --keys FILE authenticates \
                 hosts, --allow HOSTID=ADDRESS binds each to an address, --trust-network trusts all",
                list(hosts)
            ),
        }
    }
}

impl Error for AdmissionError {}

/// The options that decide who may connect.
#[derive(Default)]
pub struct Admission {
    /// Hosts that may come from one address only.
    pub allowed: Vec<([u8; 16], IpAddr)>,
    /// Whether hosts must prove who they are.
    pub has_keys: bool,
    /// Whether anyone who reaches the target is trusted.
    pub trusts_network: bool,
}

impl Admission {
    /// Whether a host may come from this address.
    pub fn allows(&self, host_id: &[u8; 16], address: IpAddr) -> bool {
        let mut bound = self.allowed.iter().filter(|(host, _)| host == host_id).peekable();
        bound.peek().is_none() || bound.any(|(_, allowed)| *allowed == address)
    }

    /// Refuses `--allow` of a host that no controller has, since the intended host could come from anywhere; and to
    /// listen beyond loopback if a host is bound neither to a secret nor to an address.
    pub fn check(&self, hosts: &[u128], listen: &[SocketAddr]) -> Result<(), AdmissionError> {
        let mut known = hosts.to_vec();
        known.sort_unstable();
        known.dedup();
        if let Some(host) = self.bound().find(|it| !known.contains(it)) {
            return Err(AdmissionError::UnknownHost(host, known));
        }
        let open = listen.iter().find(|it| !plain(**it).ip().is_loopback());
        known.retain(|host| self.bound().all(|it| it != *host));
        match open {
            Some(address) if !self.has_keys && !self.trusts_network && !known.is_empty() => {
                Err(AdmissionError::Open(*address, known))
            }
            _ => Ok(()),
        }
    }

    /// The hosts that are bound to addresses.
    fn bound(&self) -> impl Iterator<Item = u128> + '_ {
        self.allowed.iter().map(|(host, _)| u128::from_le_bytes(*host))
    }
}

/// The UUIDs of hosts, for a message.
fn list(hosts: &[u128]) -> String {
    hosts.iter().map(|it| uuid(*it)).collect::<Vec<_>>().join(" and ")
}

#[cfg(test)]
mod tests {
    use super::*;

    const OPEN: [&str; 4] = ["0.0.0.0:1", "[::]:1", "10.0.0.1:1", "[::ffff:10.0.0.1]:1"];
    const LOCAL: [&str; 3] = ["127.0.0.1:1", "[::1]:1", "[::ffff:127.0.0.2]:1"];

    fn bound(hosts: &[u128]) -> Admission {
        let allowed = hosts.iter().map(|host| (host.to_le_bytes(), "10.0.0.7".parse().unwrap())).collect();
        Admission { allowed, ..Admission::default() }
    }

    #[test]
    fn beyond_loopback_something_says_who_is_who() {
        let hosts = [0xb2, 0xa1, 0xa1];
        let check =
            |it: &Admission, address: &str| it.check(&hosts, &[LOCAL[0].parse().unwrap(), address.parse().unwrap()]);
        for address in LOCAL {
            assert_eq!(check(&bound(&[]), address), Ok(()));
        }
        for address in OPEN {
            let told = check(&bound(&[]), address).unwrap_err().to_string();
            assert!(
                told.contains("a1000000-") && told.contains("b2000000-") && told.contains("--trust-network"),
                "{told}"
            );
            let told = check(&bound(&[0xa1]), address).unwrap_err().to_string();
            assert!(!told.contains("a1000000-") && told.contains("b2000000-"), "{told}");
            assert_eq!(check(&bound(&hosts), address), Ok(()));
            assert_eq!(check(&Admission { has_keys: true, ..bound(&[]) }, address), Ok(()));
            assert_eq!(check(&Admission { trusts_network: true, ..bound(&[]) }, address), Ok(()));
            assert!(check(&Admission { has_keys: true, trusts_network: true, ..bound(&[0xc3]) }, address).is_err());
        }
    }
}
