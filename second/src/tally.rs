//! Tally: how often each outcome came up, so that a test can show it left nothing out.

use std::collections::BTreeMap;
use std::fmt;

use crate::acts::{Linked, Turned};
use crate::record::Kind;
use crate::refusal::Outcome;
use crate::soundness::Fault;

/// The outcomes each call can have: 0 and the rows of the refusal table that concern it.
pub const ROWS: [(&str, &[u32]); 13] = [
    ("empty", &[0, 1]),
    ("open", &[0, 1, 2, 3, 6, 8]),
    ("close", &[0, 1, 2, 3, 5, 10]),
    ("link", &[0, 1, 2, 3, 4, 5, 6, 8, 9]),
    ("unlink", &[0, 1, 2, 3, 4, 5, 7]),
    ("ask", &[0, 1, 2, 3, 4, 5]),
    ("reading", &[0, 1, 2, 5, 14]),
    ("stream", &[0, 1, 2, 11, 12, 13]),
    ("record-open", &[0, 3, 6, 8]),
    ("record-close", &[0, 3, 5, 10]),
    ("record-link", &[0, 3, 4, 5, 6, 8, 9]),
    ("record-unlink", &[0, 3, 4, 5, 7]),
    ("record-ask", &[0, 3, 4, 5]),
];

/// What turning came to, over all links counted.
#[derive(Clone, Copy, Debug, Default, PartialEq, Eq)]
pub struct Turnings {
    pub accepted_links: u64,
    pub reversals: u64,
    pub links_that_began: u64,
    pub began_and_refused: u64,
    /// Accepted links that turned exactly as many lists as there are links.
    pub settled_at_the_last: u64,
    pub most_lists_turned_by_accepted: u64,
    pub most_reversals_of_accepted: u64,
    pub most_places_waiting: u64,
    pub longest_list_turned: u64,
}

#[derive(Clone, Debug, Default)]
pub struct Tally {
    outcomes: BTreeMap<(&'static str, u32), u64>,
    faults: BTreeMap<Fault, u64>,
    turnings: Turnings,
}

impl Tally {
    pub fn call(&mut self, name: &'static str, outcome: Outcome) {
        *self.outcomes.entry((name, outcome.refusal)).or_default() += 1;
    }

    pub fn record(&mut self, kind: Kind, outcome: Outcome) {
        let name = match kind {
            Kind::Open => "record-open",
            Kind::Close => "record-close",
            Kind::Link => "record-link",
            Kind::Unlink => "record-unlink",
            Kind::Ask => "record-ask",
        };
        self.call(name, outcome);
    }

    pub fn fault(&mut self, fault: Fault) {
        *self.faults.entry(fault).or_default() += 1;
    }

    pub fn link(&mut self, linked: &Linked) {
        let sums = &mut self.turnings;
        if let Ok(reversals) = linked.answer {
            sums.accepted_links += 1;
            sums.reversals += reversals;
        }
        if let Some(turned) = &linked.turned {
            sums.add(turned);
        }
    }

    /// How often a call, or a record, had this outcome.
    pub fn outcomes(&self, name: &'static str, refusal: u32) -> u64 {
        self.outcomes.get(&(name, refusal)).copied().unwrap_or(0)
    }

    pub fn faults(&self, fault: Fault) -> u64 {
        self.faults.get(&fault).copied().unwrap_or(0)
    }

    pub fn turnings(&self) -> Turnings {
        self.turnings
    }

    /// The outcomes and faults that never came up.
    pub fn missing(&self) -> Vec<String> {
        let mut missing = Vec::new();
        for (name, refusals) in ROWS {
            let never = refusals.iter().filter(|&&refusal| self.outcomes(name, refusal) == 0);
            missing.extend(never.map(|refusal| format!("{} {}", name, refusal)));
        }
        let never = Fault::ALL.iter().filter(|&&fault| self.faults(fault) == 0);
        missing.extend(never.map(|fault| format!("fault {:?}", fault)));
        missing
    }
}

impl Turnings {
    fn add(&mut self, turned: &Turned) {
        let turning = &turned.turning;
        self.links_that_began += 1;
        self.most_places_waiting = self.most_places_waiting.max(turning.waiting as u64);
        self.longest_list_turned = self.longest_list_turned.max(turning.longest as u64);
        if !turning.settled {
            self.began_and_refused += 1;
            return;
        }
        self.settled_at_the_last += u64::from(turning.turned == turning.links);
        self.most_lists_turned_by_accepted = self.most_lists_turned_by_accepted.max(turning.turned);
        self.most_reversals_of_accepted = self.most_reversals_of_accepted.max(turning.reversals);
    }
}

/// Lines of a name and a count, sorted. What could have come up and did not stands with 0.
impl fmt::Display for Tally {
    fn fmt(&self, f: &mut fmt::Formatter<'_>) -> fmt::Result {
        let mut outcomes = self.outcomes.clone();
        for (name, refusals) in ROWS {
            for &refusal in refusals {
                outcomes.entry((name, refusal)).or_default();
            }
        }
        for ((name, refusal), count) in outcomes {
            writeln!(f, "{} {}: {}", name, refusal, count)?;
        }
        for fault in Fault::ALL {
            writeln!(f, "fault {:?}: {}", fault, self.faults(fault))?;
        }
        let sums = &self.turnings;
        writeln!(f, "accepted links: {}", sums.accepted_links)?;
        writeln!(f, "reversals of accepted links: {}", sums.reversals)?;
        writeln!(f, "links that began turning: {}", sums.links_that_began)?;
        writeln!(f, "links that began turning and were refused: {}", sums.began_and_refused)?;
        writeln!(f, "links settled by the last list allowed: {}", sums.settled_at_the_last)?;
        writeln!(
            f,
            "most lists turned by an accepted link: {}",
            sums.most_lists_turned_by_accepted
        )?;
        writeln!(f, "most reversals of an accepted link: {}", sums.most_reversals_of_accepted)?;
        writeln!(f, "most places waiting at once: {}", sums.most_places_waiting)?;
        writeln!(f, "longest list turned: {}", sums.longest_list_turned)
    }
}
