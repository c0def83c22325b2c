#!/usr/bin/env python3
"""Measures how long a recording host's events take with many connections.

    python3 bench/many_connections.py [COUNT ..]

Copies the repository's last commit into a folder of its own, adds the program below as a crate, and runs it with `rt
try`. That proves nothing and is slow, so only the ratios are meaningful. One host opens COUNT connections, each with a
SYN that is never answered. After one turn that examines each connection, it measures 1,000 turns in which nothing is
due: a call, a pump and a check of the timers.
"""
import pathlib
import subprocess
import sys
import tempfile

TURNS = "1000"

PROGRAM = '''
//! One host with many connections that are open and idle: how long its events take.
#![tactic(auto)]

use case_forms::{
    Answer, Call, Header, Host, Initial, Judged, OutOfMemory, Version,
};
use stack_core::{CoreConfig, HostCore, Tick};
use std::alloc::Global;
use std::time::Instant;

// The next tick of a core.
fn next(core: &HostCore) -> Tick {
    let last = core.last_tick();
    Tick {
        moment: last.moment + 1,
        counter: last.counter + 1,
    }
}

// Opens this many connections, each with its SYN.
fn open(core: &mut HostCore, count: u16) -> Result<u64, OutOfMemory> {
    let mut done = 0u64;
    for port in 0..count {
        let tick = next(core);
        core.begin(2, &Call::Connect(Host::Zero, 1024 + port, 80), tick)?;
        let tick = next(core);
        if let Some(answered) = core.attempt(2, tick)? {
            if let Answer::Given(_) = answered.answer() {
                done += 1;
            }
        }
        let tick = next(core);
        if core.pump(tick)?.is_some() {
            done += 1;
        }
    }
    Ok(done)
}

// Does this many turns in which nothing is due: a call, a pump and a check of the timers.
fn turn(core: &mut HostCore, turns: u32) -> Result<u64, OutOfMemory> {
    let mut done = 0u64;
    for _ in 0..turns {
        let tick = next(core);
        core.begin(2, &Call::Status(2), tick)?;
        let tick = next(core);
        if core.attempt(2, tick)?.is_some() {
            done += 1;
        }
        let tick = next(core);
        if core.pump(tick)?.is_none() {
            done += 1;
        }
        let tick = next(core);
        if !core.timers(tick)? {
            done += 1;
        }
    }
    Ok(done)
}

fn new_core(alloc: Global) -> HostCore {
    let header = Header {
        version: Version::One,
        skew: 0,
        msl: 3_600_000_000,
        grain: 1_000,
        minrto: 200_000,
        extra: 1,
        initial: Initial::Rfc5681,
        congestion: Judged::Full,
    };
    let config = CoreConfig {
        mss: 536,
        ring: 4096,
        first_iss: 1,
        shift: None,
    };
    HostCore::new(alloc, Host::Zero, header, config)
}

fn main(rt: HostRuntime) -> std::io::Result<()> {
    for count in [SIZES] {
        let mut core = new_core(rt.alloc());
        let start = Instant::now(&rt)?;
        let opened = open(&mut core, count).unwrap_or(0);
        let opening = start.elapsed(&rt)?.as_micros();
        let looked = turn(&mut core, 1).unwrap_or(0);
        let start = Instant::now(&rt)?;
        let turned = turn(&mut core, TURNS).unwrap_or(0);
        let turning = start.elapsed(&rt)?.as_micros();
        println!(rt; "{count} connections: {opened} done, opened in {opening} us; \\
            {looked} and {turned} done, TURNS idle turns in {turning} us")?;
        drop(core);
    }
    Ok(())
}
'''


def main():
    if "--help" in sys.argv:
        print(__doc__.strip())
        return
    counts = sys.argv[1:] or ["250", "500", "1000", "2000"]
    top = pathlib.Path(__file__).resolve().parent.parent
    with tempfile.TemporaryDirectory() as folder:
        commit = subprocess.run(["git", "-C", top, "archive", "HEAD"], stdout=subprocess.PIPE, check=True).stdout
        subprocess.run(["tar", "x", "-C", folder], input=commit, check=True)
        lines = pathlib.Path(folder, "crates.txt")
        below = next(line for line in lines.read_text().splitlines() if line.startswith("stack_core:"))
        with lines.open("a") as file:
            file.write(below.replace("stack_core:", "many_connections: stack_core") + "\n")
        crate = pathlib.Path(folder, "crates", "many_connections")
        (crate / "src").mkdir(parents=True)
        sizes = ", ".join(count + "u16" for count in counts)
        program = PROGRAM.lstrip().replace("SIZES", sizes).replace("TURNS", TURNS)
        (crate / "src" / "main.rt").write_text(program)
        subprocess.run(["rt", "try"], cwd=crate, check=True)


if __name__ == "__main__":
    main()
