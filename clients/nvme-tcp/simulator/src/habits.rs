//! What hosts and operators do besides reading and writing, each of which can be left out. A seed decides it apart from
//! its scenario.

use crate::chance::Random;
use crate::hosts::chap::Choice;

/// The kinds.
pub const HABITS: [&str; 13] = [
    "admin", "attach", "protect", "visit", "err", "type", "operator", "option", "memory", "tool", "fail", "space",
    "keys",
];

#[derive(Clone, Copy, Debug, Default)]
pub struct Habits {
    /// One time out of this number an admin command is sent after a command of I/O.
    pub admin: u64,
    /// Whether hosts detach their namespace, and write protect it, for a moment.
    pub attaches: bool,
    pub protects: bool,
    /// One time out of this number a connection becomes no path before one does, and a command is wrong.
    pub visits: u64,
    pub errs: u64,
    /// Whether completions have SQHD.
    pub has_flow: bool,
    /// The type of reservations.
    pub reservation: u32,
}

/// How targets are started, besides their source.
#[derive(Clone, Debug, Default)]
pub struct Manner {
    /// The blocks are in memory: each target begins with zeros.
    pub is_memory: bool,
    /// All namespaces are write protected.
    pub is_read_only: bool,
    /// A recording is kept, instead of a script.
    pub records: bool,
    /// Each host may come from one address alone, and one host from another.
    pub binds: bool,
    /// There is a second address.
    pub has_second: bool,
    /// Further options: the subsystem's name, the address of discovery, and others.
    pub name: Option<&'static str>,
    pub advertised: Option<&'static str>,
    pub words: Vec<&'static str>,
    /// Operators ask control lines.
    pub is_asked: bool,
    /// The disk fails often, and the files of the kept run and connections now and then.
    pub fails: bool,
    /// At the end command lines are run that serve nothing.
    pub uses_tools: bool,
    /// The file systems can't replace bytes by a hole.
    pub lacks_holes: bool,
    /// The blocks of a second namespace, or 0.
    pub second: usize,
    /// By which hosts authenticate themselves, if they have to.
    pub choice: Option<Choice>,
}

/// Whether a kind is chosen, with a probability in twelfths.
fn chosen(random: &mut Random, without: &[String], kind: &str, of_twelve: u64) -> bool {
    let is_chosen = random.below(12) < of_twelve;
    is_chosen && !without.iter().any(|it| it == kind)
}

/// The hash and the DH group of a seed. Long numbers take time, and the two longest most of it.
fn choice_of(seed: u64) -> Choice {
    let groups = [0, 1, 0, 2, 0, 1, 0, 3, 0, 1, 0, 4, 0, 1, 0, 5];
    let group = groups[(seed / 2 % 16) as usize];
    let is_too_long = group > 3 && seed / 32 % 4 != 0;
    Choice { hash: 1 + (seed / 3 % 3) as u8, group: if is_too_long { 0 } else { group } }
}

impl Manner {
    pub fn new(seed: u64, without: &[String]) -> Manner {
        let mut random = Random::new(seed.wrapping_mul(0xd6e8_feb8_6659_fd93));
        let mut has = |kind: &str, of_twelve: u64| chosen(&mut random, without, kind, of_twelve);
        let words: [(u64, &[&'static str]); 5] = [
            (2, &["--log", "json"]),
            (1, &["--log", "none"]),
            (3, &["--trace"]),
            (2, &["--trust-network", "--listen", "0.0.0.0:9999"]),
            (1, &["--listen", "[::1]:9998", "--listen", "[::ffff:127.0.0.1]:9997"]),
        ];
        let words = words.iter().filter(|(share, _)| has("option", *share)).flat_map(|(_, words)| words.iter());
        Manner {
            words: words.copied().collect(),
            is_memory: has("memory", 2),
            is_read_only: has("option", 1),
            records: has("option", 6),
            binds: has("option", 3),
            has_second: has("option", 3),
            name: has("option", 2).then_some("nqn.2024-01.example:another"),
            advertised: has("option", 3).then_some("10.1.2.3:4444"),
            is_asked: has("operator", 7),
            fails: has("fail", 2),
            // They take as long as a few seeds.
            uses_tools: has("tool", 1) && seed % 4 == 0,
            lacks_holes: has("option", 2),
            second: if has("space", 4) { [8, 40, 320][seed as usize % 3] } else { 0 },
            choice: has("keys", 3).then(|| choice_of(seed)),
        }
    }
}

impl Habits {
    pub fn new(seed: u64, without: &[String]) -> Habits {
        let mut random = Random::new(seed.wrapping_mul(0x9e6c_63d0_876a_68e1));
        let mut has = |kind: &str, of_twelve: u64| chosen(&mut random, without, kind, of_twelve);
        let (has_admin, attaches, protects) = (has("admin", 9), has("attach", 4), has("protect", 3));
        let (visits, errs, reserves) = (has("visit", 8), has("err", 8), has("type", 4));
        let often = [10, 40, 200][random.index(3)];
        Habits {
            admin: if has_admin { often } else { 0 },
            attaches: has_admin && attaches,
            protects: has_admin && protects,
            visits: if visits { [1, 3][random.index(2)] } else { 0 },
            errs: if errs { [8, 60][random.index(2)] } else { 0 },
            has_flow: !random.once_in(3),
            reservation: if reserves { random.within(2, 6) as u32 } else { 1 },
        }
    }
}
