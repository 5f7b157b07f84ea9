//! What the cabinets have met. A run that was too tame has shown nothing, and
//! fails.

use std::fmt::Write;

/// How often each thing was met.
#[derive(Clone, Debug, Default)]
pub struct Met {
    pub cabinets: u64,
    /// Calls of the healthy nodes.
    pub steps: u64,
    pub records: u64,
    pub starts: u64,
    pub past_the_offset: u64,
    pub by_the_lock: u64,
    /// Starts refused 8 and 9.
    pub beyond_the_lock: u64,
    pub waits: u64,
    pub run_ahead: u64,
    /// Healthy reports of class 0 and 5.
    pub on_time: u64,
    pub late: u64,
    /// Entries of the others, by class.
    pub lies: [u64; 6],
    /// Rounds with a liar over the bound, and with more liars than healthy ones.
    pub over_bound: u64,
    pub outnumbered: u64,
    /// Records that put a job ahead of one that stood in the order.
    pub overtaking: u64,
    pub left_behind: u64,
    /// Nodes whose record never came, and nodes that sent no report any more.
    pub lost: u64,
    pub silent: u64,
    /// Starts of a node while another had closed a record more.
    pub started_in_arrears: u64,
    /// Records that were refused, the round staying open.
    pub refused_records: u64,
    pub refused_steps: u64,
}

impl Met {
    /// Everything that a run has to meet, by name.
    fn all(&self) -> Vec<(String, u64)> {
        let mut all: Vec<(String, u64)> = [
            ("records closed", self.records),
            ("starts", self.starts),
            ("starts past O, by the bound", self.past_the_offset),
            ("starts past O, by the lock", self.by_the_lock),
            ("starts refused 8, beyond the lock", self.beyond_the_lock),
            ("starts refused 9, by the bound", self.waits),
            ("reports with run 1 and no job running", self.run_ahead),
            ("healthy reports of class 0", self.on_time),
            ("healthy reports of class 5", self.late),
            ("rounds with a liar over the bound", self.over_bound),
            ("rounds with more liars than healthy ones", self.outnumbered),
            ("records that put a job ahead of another", self.overtaking),
            ("healthy nodes left behind", self.left_behind),
            ("healthy nodes whose record never came", self.lost),
            ("healthy nodes that stopped reporting", self.silent),
            ("starts while another had closed a record more", self.started_in_arrears),
            ("records refused, and another one closed", self.refused_records),
            ("other steps that were refused", self.refused_steps),
        ]
        .map(|(what, times)| (what.to_string(), times))
        .to_vec();
        let lies = self.lies.iter().enumerate();
        all.extend(lies.map(|(class, &times)| (format!("liars' entries of class {class}"), times)));
        all
    }

    /// What was met less than once in 20,000 steps, and so too seldom.
    pub fn too_tame(&self) -> Vec<String> {
        let least = (self.steps / 20_000).max(1);
        self.all().into_iter().filter(|&(_, times)| times < least).map(|(what, _)| what).collect()
    }

    pub fn summary(&self) -> String {
        let mut lines = String::new();
        for (what, times) in self.all() {
            writeln!(lines, "{times:>9}  {what}").expect("a string takes every line");
        }
        lines
    }
}
