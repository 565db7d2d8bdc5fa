//! Made scripts: the same for the same seed, as long as asked for, and leaving no outcome out.

use second::make::{make, ScriptKind};
use second::runner::run;
use second::soundness::Fault;
use second::tally::{Tally, ROWS};

fn script(kind: ScriptKind, seed: u64, count: u64) -> Vec<u8> {
    let mut script = Vec::new();
    make(kind, seed, count, &mut script).expect("memory can be written");
    script
}

/// Runs a made script; gives the lines it printed and what came up.
fn outcome(kind: ScriptKind, seed: u64, count: u64) -> (Vec<u8>, Tally) {
    let mut out = Vec::new();
    let caller = run(&script(kind, seed, count)[..], &mut out).expect("a made script is good");
    (out, caller.tally)
}

#[test]
fn the_seed_decides() {
    for (_, kind) in ScriptKind::ALL {
        assert_eq!(script(kind, 1, 300), script(kind, 1, 300));
        assert_ne!(script(kind, 1, 300), script(kind, 2, 300));
    }
}

#[test]
fn a_script_has_as_many_calls_as_asked_for() {
    for (_, kind) in ScriptKind::ALL {
        for count in [0, 1, 777] {
            let lines = outcome(kind, 9, count).0.iter().filter(|&&byte| byte == b'\n').count();
            assert_eq!(lines as u64, count);
        }
    }
}

/// Every outcome of these calls and every fault came up.
fn assert_nothing_missing(kind: ScriptKind, calls: &[&'static str]) {
    let (_, tally) = outcome(kind, 4, 9_000);
    for (name, refusals) in ROWS.iter().filter(|(name, _)| calls.contains(name)) {
        for &refusal in *refusals {
            assert!(tally.outcomes(name, refusal) > 0, "{:?}: {} {}", kind, name, refusal);
        }
    }
    for fault in Fault::ALL {
        assert!(tally.faults(fault) > 0, "{:?}: {:?}", kind, fault);
    }
}

#[test]
fn each_kind_reaches_all_of_its_own() {
    assert_nothing_missing(ScriptKind::Reads, &["empty", "ask", "reading"]);
    assert_nothing_missing(ScriptKind::Writes, &["open", "close", "unlink"]);
    assert_nothing_missing(ScriptKind::Links, &["link"]);
    let streams =
        ["stream", "record-open", "record-close", "record-link", "record-unlink", "record-ask"];
    assert_nothing_missing(ScriptKind::Streams, &streams);
}

#[test]
fn links_turn_lists_in_plenty() {
    let turnings = outcome(ScriptKind::Links, 4, 15_000).1.turnings();
    assert!(turnings.links_that_began >= 1_000, "{:?}", turnings);
    assert!(turnings.most_lists_turned_by_accepted > 10, "{:?}", turnings);
    assert!(turnings.began_and_refused >= 100, "{:?}", turnings);
    assert!(turnings.settled_at_the_last > 0, "{:?}", turnings);
    assert!(turnings.longest_list_turned > 6, "D is at most 5 here: {:?}", turnings);
}

#[test]
fn the_mix_leaves_nothing_out() {
    let (_, tally) = outcome(ScriptKind::All, 4, 15_000);
    assert_eq!(tally.missing(), Vec::<String>::new());
    // Seventy-one outcomes and sixteen faults are looked for, and nothing else came up.
    assert_eq!(Tally::default().missing().len(), 71 + 16);
    let lines = |tally: &Tally| tally.to_string().lines().count();
    assert_eq!(lines(&tally), lines(&Tally::default()));
}
