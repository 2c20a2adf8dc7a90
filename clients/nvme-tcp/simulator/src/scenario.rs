//! What a seed decides: the source that is served, the hosts, and how often things go wrong.

use crate::chance::Random;
use crate::habits::{Habits, Manner};
use crate::hosts::pdu::Digests;
use crate::hosts::visits::HOST_OF_ELSEWHERE;
use crate::hosts::Path;
use crate::world::{Chances, MICROSECOND, MILLISECOND};

/// The kinds of trouble, each of which can be left out.
pub const KINDS: [&str; 11] =
    ["kill", "power", "stop", "takeover", "cut", "end", "cycle", "hold", "lies", "disk", "late"];

/// What hosts send, of a hundred commands: writes, reads, compares, zeroes, deallocations. The others flush.
const MIXES: [[usize; 5]; 5] =
    [[40, 37, 5, 5, 4], [40, 37, 5, 5, 4], [25, 25, 0, 25, 20], [10, 88, 0, 1, 0], [40, 20, 0, 4, 3]];

/// The name of the subsystem, unless an option gives it another.
pub const NAME: &str = "nqn.2024-01.example:suvmileh";

/// The most blocks that a target keeps in memory here, and the most controllers of a subsystem.
const MOST_IN_MEMORY: usize = 1_024;
const MOST_CONTROLLERS: usize = 16;

/// What a seed is about: the others meet it too seldom.
#[derive(Clone, Copy, Debug, PartialEq, Eq)]
enum Theme {
    Any,
    /// More frames than the cache has. Few commands, most of them long, fill it at once.
    Heavy,
    /// The same, with nothing that ends a connection.
    Full,
    /// Many hosts that zero blocks of a slow disk.
    Zeroes,
    /// Targets that take a volume from each other.
    Owners,
    /// A disk that fails, under hosts that flush.
    Failing,
    /// Nothing that ends a connection: what waits for ever shows. The network takes few bytes.
    Calm,
}

/// The troubles that end connections or stop targets.
const ENDS: [&str; 6] = ["kill", "power", "stop", "takeover", "cut", "end"];

#[derive(Clone, Debug)]
pub struct Scenario {
    pub seed: u64,
    pub commands: u64,
    pub is_volume: bool,
    /// Options of an image.
    pub options: Vec<&'static str>,
    pub writes_through: bool,
    /// Whether targets keep their runs: then a failure of the disk ends them.
    pub keeps_run: bool,
    /// Whether reservations persist through power loss.
    pub persists: bool,
    pub blocks: usize,
    pub paths: Vec<Path>,
    pub chances: Chances,
    /// How long the network takes for a segment, in nanoseconds, and how many bytes it has room for.
    pub slow: (u64, u64),
    pub window: usize,
    /// Which troubles there are.
    pub kinds: Vec<&'static str>,
    /// Between two troubles, in nanoseconds at most.
    pub peace: u64,
    pub manner: Manner,
}

impl Theme {
    fn of(number: u64) -> Theme {
        match number {
            0 => Theme::Heavy,
            1 => Theme::Full,
            2 => Theme::Zeroes,
            3..=4 => Theme::Owners,
            5 => Theme::Failing,
            6 => Theme::Calm,
            _ => Theme::Any,
        }
    }

    /// Whether a kind of trouble is a part of it, unless chance decides.
    fn has(self, kind: &str) -> Option<bool> {
        let ends = ENDS.contains(&kind);
        match self {
            Theme::Owners => Some(matches!(kind, "stop" | "takeover")),
            Theme::Failing if matches!(kind, "power" | "disk") => Some(true),
            Theme::Failing | Theme::Calm | Theme::Zeroes | Theme::Full if ends => Some(false),
            _ => None,
        }
    }

    fn blocks(self, random: &mut Random) -> usize {
        match self {
            Theme::Heavy | Theme::Full => 24_576,
            Theme::Zeroes => 40,
            Theme::Owners => [40, 160][random.index(2)],
            _ => [40, 40, 160, 1_024, 9_216][random.index(5)],
        }
    }

    fn hosts(self, random: &mut Random) -> usize {
        let (least, most) = match self {
            Theme::Zeroes => (16, 16),
            Theme::Owners => (3, 6),
            Theme::Heavy | Theme::Full => (2, 6),
            _ if random.once_in(8) => (5, 16),
            _ => (1, 4),
        };
        random.within(least, most) as usize
    }

    /// Which of the networks it has: commands come sooner than the disk executes them, or they last until another target
    /// has taken over.
    fn network(self) -> Option<usize> {
        match self {
            Theme::Full | Theme::Zeroes => Some(0),
            Theme::Owners => Some(2),
            _ => None,
        }
    }

    /// Long commands take more time.
    fn most_commands(self) -> u64 {
        match self {
            Theme::Heavy | Theme::Full => 400,
            _ => u64::MAX,
        }
    }

    fn adapt(self, random: &mut Random, paths: &mut [Path], chances: &mut Chances) {
        for (number, it) in paths.iter_mut().enumerate() {
            match self {
                Theme::Heavy => (it.depth, it.long, it.longest, it.mix) = (31, 4, 256, MIXES[3]),
                Theme::Full => {
                    (it.depth, it.long, it.longest, it.mix, it.is_eager) = (31, 4, 256, MIXES[3], true);
                }
                Theme::Zeroes => {
                    // Those with one command at a time wait for the others.
                    (it.depth, it.mix, it.is_eager) = (if number % 8 == 0 { 1 } else { 31 }, [1, 1, 0, 97, 0], true);
                    (it.long, it.restless, it.reserves) = (0, 0, 0);
                }
                Theme::Owners => (it.depth, it.long, it.mix, it.reserves) = (2, 2, [45, 50, 0, 2, 0], 0),
                Theme::Failing => (it.crashes, it.mix, it.cuts_power) = (60, MIXES[4], true),
                Theme::Calm => (it.long, it.restless) = (2, 0),
                Theme::Any => (),
            }
        }
        match self {
            Theme::Owners => chances.short = 3,
            Theme::Full | Theme::Zeroes => chances.late_disk = 4,
            Theme::Failing => (chances.failed_sync, chances.failed_write) = (20, [0, 100][random.index(2)]),
            _ => (),
        }
    }
}

impl Scenario {
    pub fn new(seed: u64, commands: u64, without: &[String]) -> Scenario {
        let mut random = Random::new(seed.wrapping_mul(0x1234_5678_9abc_def1));
        let theme = Theme::of(random.below(24));
        let is_volume = theme == Theme::Owners || random.once_in(2) && theme != Theme::Failing;
        let options = match random.below(3) {
            0 if theme != Theme::Failing => vec!["--write-through"],
            1 => vec!["--direct"],
            _ => Vec::new(),
        };
        let writes_through = is_volume || options.contains(&"--write-through");
        let blocks = theme.blocks(&mut random);
        let kinds = KINDS.iter().copied().filter(|it| !without.iter().any(|out| out == it));
        let kinds: Vec<&str> = kinds.filter(|it| theme.has(it).unwrap_or_else(|| !random.once_in(3))).collect();
        let has = |kind: &str| kinds.contains(&kind);
        let mut chances = Scenario::chances(&mut random, &has);
        let slow = [(MICROSECOND, 5 * MICROSECOND), (20 * MICROSECOND, MILLISECOND / 2), (0, 20 * MILLISECOND)];
        let (slow, peace) =
            (slow[theme.network().unwrap_or(random.index(3))], [100, 400, 1_500][random.index(3)] * MILLISECOND);
        let (keeps_run, persists) = (!random.once_in(4), !random.once_in(3));
        let mut paths = Scenario::paths(&mut random, theme, (blocks, persists), &has);
        theme.adapt(&mut random, &mut paths, &mut chances);
        let options = if is_volume { Vec::new() } else { options };
        // The other themes are met the more often without further options and habits.
        let (habits, manner) = match theme {
            Theme::Any => (Habits::new(seed, without), Manner::new(seed, without)),
            _ => (Habits { has_flow: true, ..Habits::default() }, Manner::default()),
        };
        Scenario {
            seed,
            commands: commands.min(theme.most_commands()),
            is_volume,
            options,
            writes_through,
            keeps_run: keeps_run && theme != Theme::Failing,
            persists,
            blocks,
            paths,
            chances,
            slow,
            window: if theme == Theme::Calm { 4096 << random.below(4) } else { 256 << 10 },
            kinds,
            peace,
            manner,
        }
        .adapted(habits)
    }

    /// With these habits of hosts, and with what the manner of its targets has of it.
    fn adapted(mut self, habits: Habits) -> Scenario {
        let manner = &mut self.manner;
        manner.is_memory &= !self.is_volume && self.blocks + manner.second <= MOST_IN_MEMORY;
        manner.binds &= self.paths.len() < MOST_CONTROLLERS;
        if manner.is_memory {
            (self.options, self.writes_through) = (Vec::new(), true);
        }
        if manner.fails {
            self.keeps_run = self.chances.fail(self.seed);
        }
        for path in &mut self.paths {
            (path.habits, path.advertised, path.choice) = (habits, manner.advertised, manner.choice);
            path.name = manner.name.unwrap_or(NAME);
            // Some controllers do not have it, and in some seeds none has.
            path.second = if path.cntlid % 4 == 3 || manner.is_read_only { 0 } else { manner.second };
        }
        self
    }

    fn chances(random: &mut Random, has: &dyn Fn(&str) -> bool) -> Chances {
        let disk = |random: &mut Random, often: u64| if has("disk") && random.once_in(3) { often } else { 0 };
        Chances {
            late_disk: if has("late") { [4, 20 + random.below(300)][random.index(2)] } else { 0 },
            failed_read: disk(random, 1_000),
            failed_write: disk(random, 1_000),
            failed_sync: disk(random, 1_000),
            short: [0, 3, 50][random.index(3)],
            yields: [0, 2, 10][random.index(3)],
            ..Chances::default()
        }
    }

    fn paths(
        random: &mut Random,
        theme: Theme,
        (blocks, persists): (usize, bool),
        has: &dyn Fn(&str) -> bool,
    ) -> Vec<Path> {
        let hosts = theme.hosts(random);
        let reserves = [0, 20, 200, 500][random.index(4)];
        let per_host = if hosts > 8 { 1 } else { 1 + random.index(2) };
        let all: Vec<usize> = (0..hosts * per_host).map(|it| it / per_host).collect();
        let crashes = [0, 60, 300][random.index(3)];
        let common = Path {
            host: 0,
            hosts,
            per_host,
            cntlid: 0,
            blocks,
            second: 0,
            depth: [1, 4, 16, 31][random.index(4)],
            is_eager: false,
            longest: [8, 32, 256, 256][random.index(4)].min(blocks),
            long: 1,
            lies: has("lies"),
            reserves,
            persists,
            digests: Digests::default(),
            forces: [0, 3, 20][random.index(3)],
            crashes: if has("kill") || has("power") { crashes } else { 0 },
            restless: [0, 100, 400][random.index(3)],
            cuts_power: has("power"),
            mix: MIXES[random.index(MIXES.len())],
            name: NAME,
            advertised: None,
            choice: None,
            habits: Habits::default(),
        };
        let paths = (1..).zip(all).map(|(cntlid, host)| {
            let digests = Digests { header: random.once_in(3), data: random.once_in(3) };
            Path { host, cntlid, digests, ..common.clone() }
        });
        paths.collect()
    }

    /// The values of `--allow`: each host comes from here, and one from elsewhere.
    pub fn allowed(&self) -> Vec<String> {
        let mut hosts: Vec<u128> = self.paths.iter().map(Path::host_id).collect();
        hosts.dedup();
        let mut list: Vec<String> = hosts.iter().map(|it| format!("{:032x}=127.0.0.1", it.swap_bytes())).collect();
        list.push(format!("{:032x}=10.9.9.9", HOST_OF_ELSEWHERE.swap_bytes()));
        list
    }

    /// The lines of CONFIG.
    pub fn config(&self) -> String {
        let mut text = String::new();
        for it in &self.paths {
            text += &format!("controller {} host {:#x}\n", it.cntlid, it.host_id());
        }
        if self.manner.binds {
            text += &format!("controller {} host {HOST_OF_ELSEWHERE:#x}\n", self.paths.len() + 1);
        }
        text += &format!("namespace 1 blocks {} shared\n", self.blocks);
        if self.manner.second != 0 {
            text += &format!("namespace 2 blocks {} shared\n", self.manner.second);
        }
        for it in &self.paths {
            text += &format!("attached {} 1\n", it.cntlid);
            if it.second != 0 {
                text += &format!("attached {} 2\n", it.cntlid);
            }
        }
        text
    }

    /// The blocks of all namespaces.
    pub fn all_blocks(&self) -> usize {
        self.blocks + self.manner.second
    }
}
