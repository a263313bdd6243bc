//! Measures the messenger: medians of many runs. The word `run` measures the path of a text, the word `ring` the
//! arithmetic of the key encapsulation, a turn and the three formats, the word `store` a record in memory and on a
//! file, a relay over loopback, and a client on a file. The word `ratios` says whether what is measured side by side keeps
//! within wide bounds. Without a word it prints one fixed line.
#![tactic(auto)]

use std::{env, io};

mod cipher;
mod clock;
mod formats;
mod guarded;
mod long;
mod mechanism;
mod message;
mod network;
mod party;
mod ratios;
mod record;
mod relay;
mod ring;
mod session;
mod store;
mod turn;

/// Measures what a word names.
fn measure(rt: &HostRuntime, word: &str) -> io::Result<()> {
    match word {
        "run" => {
            cipher::report(rt)?;
            message::report(rt)?;
            relay::report(rt)?;
            guarded::report(rt)?;
            long::report(rt)
        }
        "ring" => {
            ring::report(rt)?;
            mechanism::report(rt)?;
            turn::report(rt)?;
            formats::report(rt)
        }
        "store" => {
            record::report(rt)?;
            store::report(rt)?;
            network::report(rt)?;
            session::report(rt)
        }
        "ratios" => ratios::report(rt),
        _ => println!(rt; "bench: give the word run, ring, store or ratios, and wait some seconds"),
    }
}

fn main(rt: HostRuntime) -> io::Result<()> {
    let mut args = env::args(&rt)?;
    let _name = args.next();
    match args.next() {
        Some(word) => measure(&rt, word.as_str()),
        None => measure(&rt, ""),
    }
}
