//! Make: random scripts of calls, the same for the same seed, aimed at every outcome.

mod damage;
pub mod days;
mod edges;
mod episodes;
mod last_list;
mod maker;
mod picks;
mod random;
mod records;
mod sound;
mod streams;
mod trouble;

use std::io::{self, Write};

use maker::Maker;
pub use random::Random;

/// Scripts of at least this many calls also get the longest streams, whose lines are long.
const LONGEST_STREAMS_FROM: u64 = 10_000;

/// What a script is about.
#[derive(Clone, Copy, Debug, PartialEq, Eq)]
pub enum ScriptKind {
    Reads,
    Writes,
    Links,
    Streams,
    All,
}

impl ScriptKind {
    pub const ALL: [(&'static str, ScriptKind); 5] = [
        ("reads", ScriptKind::Reads),
        ("writes", ScriptKind::Writes),
        ("links", ScriptKind::Links),
        ("streams", ScriptKind::Streams),
        ("all", ScriptKind::All),
    ];

    pub fn of(name: &str) -> Option<ScriptKind> {
        ScriptKind::ALL.iter().find(|(known, _)| *known == name).map(|(_, kind)| *kind)
    }
}

/// Writes a script of `count` calls.
pub fn make(kind: ScriptKind, seed: u64, count: u64, out: &mut impl Write) -> io::Result<()> {
    let mut maker = Maker::new(seed, count);
    let streams = matches!(kind, ScriptKind::Streams | ScriptKind::All);
    if streams && count >= LONGEST_STREAMS_FROM {
        streams::longest(&mut maker);
    }
    while !maker.full() {
        episode(kind, &mut maker);
        out.write_all(maker.take_text().as_bytes())?;
    }
    Ok(())
}

/// A stretch of a script with one store. Each makes at least one call, so that a script ends.
fn episode(kind: ScriptKind, maker: &mut Maker) {
    const EDGES_IN: u64 = 40;
    if maker.random.below(EDGES_IN) == 0 {
        return edges::episode(kind, maker);
    }
    match kind {
        ScriptKind::Reads => episodes::reads(maker),
        ScriptKind::Writes => episodes::writes(maker),
        ScriptKind::Links => episodes::links(maker),
        ScriptKind::Streams => streams::episode(maker),
        ScriptKind::All => match maker.random.below(6) {
            0 => episodes::reads(maker),
            1 => episodes::writes(maker),
            2 => episodes::links(maker),
            _ => streams::episode(maker),
        },
    }
}
