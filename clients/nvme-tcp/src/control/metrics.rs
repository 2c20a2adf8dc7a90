//! `metrics`: the counters, in the text form that Prometheus reads.

use crate::control::counters::{Kind, CLOSINGS};
use crate::numbers::to_u64;
use crate::nvme::names::{command_name, fabrics_name};
use crate::nvme::status::{Status, SUCCESS};
use crate::nvme::BLOCK;
use crate::target::{uuid, Target};
use std::collections::BTreeMap;
use std::fmt::{Display, Write};

/// Ends the text. Prometheus takes it for a comment.
const END: &str = "# EOF";

/// A text of metrics.
struct Metrics(String);

impl Metrics {
    /// Begins a metric.
    fn begin(&mut self, name: &str, kind: &str, help: &str) {
        let _ = write!(self.0, "# HELP {name} {help}\n# TYPE {name} {kind}\n");
    }

    /// Adds a sample with these labels, whose values have no character that would need an escape.
    fn sample(&mut self, name: &str, labels: &[(&str, &dyn Display)], value: impl Display) {
        let labels: Vec<String> = labels.iter().map(|(name, value)| format!("{name}=\"{value}\"")).collect();
        let _ = match &labels[..] {
            [] => writeln!(self.0, "{name} {value}"),
            labels => writeln!(self.0, "{name}{{{}}} {value}", labels.join(",")),
        };
    }

    /// A metric with one sample.
    fn single(&mut self, name: &str, kind: &str, help: &str, value: impl Display) {
        self.begin(name, kind, help);
        self.sample(name, &[], value);
    }
}

impl Target<'_> {
    /// The answer to `metrics`.
    pub fn metrics(&mut self) -> String {
        let mut metrics = Metrics(String::new());
        self.put_service(&mut metrics);
        self.put_commands(&mut metrics);
        self.put_controllers(&mut metrics);
        metrics.0.push_str(END);
        metrics.0
    }

    fn put_service(&self, metrics: &mut Metrics) {
        let (counters, gauge, counter) = (&self.counters, "gauge", "counter");
        let version = env!("CARGO_PKG_VERSION");
        metrics.begin("nvmetcp_build_info", gauge, "The version of the target.");
        metrics.sample("nvmetcp_build_info", &[("version", &version)], 1);
        let started = counters.started.as_secs();
        metrics.single("nvmetcp_start_time_seconds", gauge, "When the target started, in seconds since 1970.", started);
        let help = "Connections that were accepted.";
        metrics.single("nvmetcp_connections_accepted_total", counter, help, counters.accepted);
        metrics.single("nvmetcp_connections", gauge, "Open connections.", counters.connections());
        let name = "nvmetcp_connections_closed_total";
        metrics.begin(name, counter, "Connections that have ended, by reason.");
        for (closing, reason) in CLOSINGS {
            metrics.sample(name, &[("reason", &reason)], counters.closed[closing.place()]);
        }
        metrics.single("nvmetcp_power_cycles_total", counter, "Power cycles by ctl.", counters.power_cycles);
        let help = "Lines of the log that were left out.";
        metrics.single("nvmetcp_log_lines_left_out_total", counter, help, self.log.left_out);
        let in_use = self.associations.iter().flatten().count();
        metrics.single("nvmetcp_controllers", gauge, "Controllers of the subsystem.", self.controllers.len());
        metrics.single("nvmetcp_controllers_in_use", gauge, "Controllers that a host has.", in_use);
    }

    /// How many commands were answered, by queue, name and status. Opcodes that are not known are one.
    fn put_commands(&self, metrics: &mut Metrics) {
        let mut sums: BTreeMap<(&str, &str, Status), u64> = BTreeMap::new();
        let others = [Kind::Fabrics, Kind::Admin].map(|kind| (kind, &self.counters.succeeded[kind.place()]));
        let succeeded = others.into_iter().chain(self.health.iter().map(|it| (Kind::Io, &it.succeeded)));
        let succeeded = succeeded.flat_map(|(kind, counts)| {
            (0..=255).zip(counts).map(move |(opcode, count)| ((kind, opcode, SUCCESS), *count))
        });
        let failed = self.counters.failed.iter().map(|(key, count)| (*key, *count));
        for ((kind, opcode, status), count) in succeeded.chain(failed).filter(|(_, count)| *count != 0) {
            let (queue, command) = match kind {
                Kind::Fabrics => ("fabrics", fabrics_name(opcode)),
                Kind::Admin => ("admin", command_name(0, opcode)),
                Kind::Io => ("io", command_name(1, opcode)),
            };
            *sums.entry((queue, command, status)).or_default() += count;
        }
        let name = "nvmetcp_commands_total";
        metrics.begin(name, "counter", "Commands that were answered, by queue, command and status.");
        for ((queue, command, status), count) in sums {
            metrics.sample(name, &[("queue", &queue), ("command", &command), ("status", &status)], count);
        }
    }

    /// What each controller has done, and has now.
    fn put_controllers(&mut self, metrics: &mut Metrics) {
        type Read<'r> = &'r dyn Fn(usize) -> u64;
        let (gauge, counter) = ("gauge", "counter");
        let count = self.controllers.len();
        let queues: Vec<u64> = (0..count).map(|it| to_u64(self.io_queues(it))).collect();
        let health = |index: usize| &self.health[index];
        let each: [(&str, &str, &str, Read<'_>); 9] = [
            ("nvmetcp_read_bytes_total", counter, "Bytes of blocks that were read or compared.", &|it| {
                BLOCK * health(it).blocks_read
            }),
            ("nvmetcp_written_bytes_total", counter, "Bytes of blocks that were written.", &|it| {
                BLOCK * health(it).blocks_written
            }),
            ("nvmetcp_zeroed_bytes_total", counter, "Bytes of blocks that were zeroed or deallocated.", &|it| {
                BLOCK * health(it).blocks_zeroed
            }),
            ("nvmetcp_reservation_conflicts_total", counter, "Commands answered Reservation Conflict.", &|it| {
                health(it).conflicts
            }),
            ("nvmetcp_command_errors_total", counter, "Commands with another status than success.", &|it| {
                health(it).errors
            }),
            ("nvmetcp_controller_in_use", gauge, "Whether a host has the controller.", &|it| {
                self.associations[it].is_some().into()
            }),
            ("nvmetcp_io_queues", gauge, "I/O queues that are connected.", &|it| queues[it]),
            ("nvmetcp_held_commands", gauge, "Commands that are held by ctl.", &|it| to_u64(self.held[it].len())),
            ("nvmetcp_ana_state", gauge, "Asymmetric access: 1 optimized, 2 non-optimized, 3 inaccessible.", &|it| {
                self.access[it].state().into()
            }),
        ];
        for (name, kind, help, read) in each {
            metrics.begin(name, kind, help);
            for (index, it) in self.controllers.iter().enumerate() {
                metrics.sample(name, &[("controller", &it.cntlid), ("host", &uuid(it.host))], read(index));
            }
        }
    }
}
