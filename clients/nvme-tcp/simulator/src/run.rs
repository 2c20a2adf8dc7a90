//! Runs one seed, from the first start of a target to the end of the last.

use crate::control::{Asked, Operator};
use crate::hosts::keyring::KeyRing;
use crate::hosts::{checker, Path};
use crate::scenario::Scenario;
use crate::supervisor::{Act, Supervisor};
use crate::tools;
use crate::world::tap::Tap;
use crate::world::{self, with, MICROSECOND, MILLISECOND, SECOND};
use std::cell::{Cell, RefCell};
use std::collections::BTreeMap;
use std::net::SocketAddr;
use std::rc::Rc;

/// Steps without which a seed counts as one without progress: for each command, and for each run.
const STEPS: (u64, u64) = (500, 1_000_000);

/// The result of a seed.
pub struct Report {
    pub violations: Vec<String>,
    pub sent: u64,
    pub answered: u64,
    pub steps: u64,
    pub simulated: u64,
    pub digest: u64,
    pub events: u64,
    pub lines: Option<Vec<String>>,
    pub tapped: Option<Tap>,
    pub injected: BTreeMap<&'static str, u64>,
    pub statuses: BTreeMap<u16, u64>,
    pub fenced: u64,
    pub replayed: usize,
    pub starts: usize,
}

/// What the fibers of hosts share.
#[derive(Default)]
struct Shared {
    addresses: RefCell<Vec<SocketAddr>>,
    asked: RefCell<Vec<Asked>>,
    is_over: Cell<bool>,
    running: Cell<usize>,
    is_done: Cell<bool>,
    counts: Cell<(usize, usize)>,
}

/// Runs a scenario. `variant` is for other random choices than those of the scenario.
pub fn run(scenario: &Scenario, variant: u64, act: Act, is_logged: bool) -> Report {
    world::begin(scenario.seed ^ variant << 40, scenario.chances.clone(), is_logged);
    with(|it| (it.net.slow, it.net.window) = (scenario.slow, scenario.window));
    checker::begin(scenario.all_blocks(), scenario.blocks, scenario.writes_through, scenario.persists);
    checker::check(|it| it.protection.is_read_only = scenario.manner.is_read_only);
    let hosts = scenario.paths.iter().map(|it| it.hosts).max().unwrap_or(0);
    checker::check(|it| it.keys = KeyRing::new(hosts));
    let shared = Rc::new(Shared::default());
    let (theirs, whole) = (Rc::clone(&shared), scenario.clone());
    world::spawn("supervisor", Box::new(move || supervise(whole, act, &theirs)));
    let most = STEPS.0 * scenario.commands + STEPS.1;
    while !shared.is_done.get() {
        let is_stuck = !world::step();
        if is_stuck || with(|it| it.steps) > most {
            checker::check(|it| it.violate("nothing happens any more".to_owned()));
            break;
        }
        if let Some(Err((_, text))) = with(|it| it.processes[world::HOSTS].outcome.clone()) {
            checker::check(|it| it.violate(format!("the simulator: {text}")));
            break;
        }
    }
    report(&shared)
}

fn report(shared: &Shared) -> Report {
    let (replayed, starts) = shared.counts.get();
    with(|world| {
        checker::check(|check| Report {
            violations: std::mem::take(&mut check.violations),
            sent: check.sent,
            answered: check.answered,
            steps: world.steps,
            simulated: world.now - 1_000 * SECOND,
            digest: world.log.digest,
            events: world.log.count,
            lines: world.log.lines.take(),
            tapped: world.tap.take(),
            injected: std::mem::take(&mut world.injected),
            statuses: std::mem::take(&mut check.statuses),
            fenced: check.fenced,
            replayed,
            starts,
        })
    })
}

fn supervise(scenario: Scenario, act: Act, shared: &Rc<Shared>) {
    let (peace, commands) = (scenario.peace, scenario.commands);
    let mut supervisor = Supervisor::new(scenario.clone(), act);
    supervisor.prepare();
    supervisor.start(0);
    follow(&supervisor, shared);
    for path in scenario.paths.iter().cloned() {
        begin(path, commands, shared);
    }
    if scenario.manner.is_asked {
        begin_asking(&scenario, shared);
    }
    while checker::check(|it| it.sent < commands && it.violations.is_empty()) {
        let time = with(|it| it.random.within(100 * MICROSECOND, peace));
        supervisor.rest(time);
        supervisor.wait_for_answers();
        supervisor.trouble();
        keep_running(&mut supervisor, shared);
    }
    shared.is_over.set(true);
    while shared.running.get() != 0 && checker::check(|it| it.violations.is_empty()) {
        world::pause(10 * MILLISECOND);
        keep_running(&mut supervisor, shared);
    }
    if checker::check(|it| it.violations.is_empty()) {
        finish(&mut supervisor, &scenario, shared);
    }
    shared.counts.set((supervisor.replayed, supervisor.ends));
    shared.is_done.set(true);
}

/// Reads all blocks, ends the targets in order, and starts one more that has the same blocks.
fn finish(supervisor: &mut Supervisor, scenario: &Scenario, shared: &Rc<Shared>) {
    with(|it| {
        it.chances = crate::world::Chances { yields: 10, ..Default::default() };
        it.disks.misdirection.next = None;
    });
    for _ in 0..2 {
        for path in scenario.paths.iter().cycle().take(20) {
            keep_running(supervisor, shared);
            let read = supervisor.running.first().map_or(Ok(false), |it| path.read_all(it.address));
            match read {
                Ok(true) => break,
                Ok(false) => (),
                Err(lost) => path.lose(&lost),
            }
            world::pause(SECOND);
        }
        while !supervisor.running.is_empty() && checker::check(|it| it.violations.is_empty()) {
            supervisor.end(0);
        }
    }
    if scenario.manner.uses_tools && checker::check(|it| it.violations.is_empty()) {
        tools::use_all(supervisor);
    }
}

fn follow(supervisor: &Supervisor, shared: &Shared) {
    let running = supervisor.running.iter();
    *shared.addresses.borrow_mut() = running.clone().flat_map(|it| [Some(it.address), it.second]).flatten().collect();
    let asked = running.map(|it| Asked { process: it.process, control: it.control.clone() });
    *shared.asked.borrow_mut() = asked.collect();
}

/// Starts an operator.
fn begin_asking(scenario: &Scenario, shared: &Rc<Shared>) {
    shared.running.set(shared.running.get() + 1);
    let (shared, commands) = (Rc::clone(shared), scenario.commands);
    let mut operator = Operator::new(scenario.paths.len(), scenario.manner.is_memory);
    let work = move || {
        let is_over = || shared.is_over.get() || checker::check(|it| it.sent >= commands);
        operator.run(|| shared.asked.borrow().clone(), is_over);
        shared.running.set(shared.running.get() - 1);
    };
    world::spawn("operator", Box::new(work));
}

/// Judges the targets that have ended, and starts one if there is none.
fn keep_running(supervisor: &mut Supervisor, shared: &Shared) {
    supervisor.collect();
    for _ in 0..50 {
        if !supervisor.running.is_empty() || checker::check(|it| !it.violations.is_empty()) {
            break;
        }
        supervisor.restart();
        supervisor.collect();
    }
    follow(supervisor, shared);
}

fn begin(path: Path, commands: u64, shared: &Rc<Shared>) {
    shared.running.set(shared.running.get() + 1);
    let shared = Rc::clone(shared);
    let work = move || {
        let is_over = || shared.is_over.get() || checker::check(|it| it.sent >= commands);
        path.run(|| shared.addresses.borrow().clone(), is_over);
        shared.running.set(shared.running.get() - 1);
    };
    world::spawn("path", Box::new(work));
}
