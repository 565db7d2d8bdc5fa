//! A connection that is held, looked up, let go, and a run that ends: what a program over the library looks like.
//!
//! cargo run --example connections

use wormstrand::{Refusal, Run, Sizes, Store};

fn main() -> Result<(), Refusal> {
    let mut store = Store::new(Sizes { n: 16, c: 64, d: 4 })?;
    let feeder = Run { line: 7, trip: 4012 };
    let express = Run { line: 1, trip: 100 };
    let local = Run { line: 2, trip: 100 };
    for run in [feeder, express, local] {
        println!("line {} trip {}: place {}", run.line, run.trip, store.open(run)?);
    }
    store.link(feeder, express)?;
    store.link(feeder, local)?;
    println!("express waits for the feeder: {}", store.ask(express, feeder)?);
    println!("express waits for the local: {}", store.ask(express, local)?);
    println!("reading of all three: {}", store.reading(&[0, 1, 2])?);
    if let Err(refusal) = store.close(feeder) {
        println!("the feeder stays open: {}", refusal);
    }
    store.unlink(express, feeder)?;
    store.unlink(local, feeder)?;
    store.close(feeder)?;
    println!("the feeder is closed");
    Ok(())
}
