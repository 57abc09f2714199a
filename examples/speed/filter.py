#!/usr/bin/env python3
"""Measures how fast a value of 8192 types is filtered, beside a plain copy of the same words, in one run.

It makes a program over the repository's `wf_base` and `wf_lattice` in a folder of its own, which the toolchain's `rt` proves
and builds, so the first run takes some minutes. Run it at the top of the repository, with nothing else at work.
"""
import os
import shutil
import subprocess
import tempfile

PROGRAM = """\
//! Filters values of 8192 types, and copies them.
#![tactic(auto)]
ghost use Rattle.std.specs.Prelude.{◌≡◌, ◌<◌, length};

use std::io;
use std::time::Instant;
use wf_lattice::{Nulls, RefView, filtered};

const ROUNDS: u32 = 1000000;

const THRESHOLD: u32 = 20;

fn filter_all(value: &[u64], inst: &[u64], mask: &[u64], into: &mut [u64])
    requires some { 0 < length mask.now }
    requires value_length { length value.now ≡ length mask.now }
    requires inst_length { length inst.now ≡ length mask.now }
    requires into_length { length into.old ≡ length mask.now }
{
    for _ in 0..ROUNDS {
        filtered(
            RefView::new(value, THRESHOLD),
            RefView::new(inst, THRESHOLD),
            mask,
            Nulls::Keep,
            into,
        );
    }
}

fn copy_all(value: &[u64], into: &mut [u64])
    requires some { 0 < length into.old }
    requires lengths { length value.now ≡ length into.old }
{
    for round in 0..ROUNDS {
        into.copy_from_slice(value);
        into[0] = round as u64;
    }
}

fn main(rt: HostRuntime) -> io::Result<()> {
    let mut few = [0u64; 129];
    few[3] = 7;
    few[90] = 1 << 40;
    let mut many = [0u64; 129];
    many[0] = 1;
    let all = [u64::MAX; 129];
    for (name, value) in [("a set", &few), ("saturated", &many)] {
        let mut into = [0u64; 129];
        let start = Instant::now(&rt)?;
        filter_all(value, &all, &all, &mut into);
        let took = start.elapsed(&rt)?;
        let start = Instant::now(&rt)?;
        copy_all(value, &mut into);
        let copied = start.elapsed(&rt)?;
        println!(rt; "{name}: {} ns filtered, {} ns copied, {}", took.as_micros() / 1000, copied.as_micros() / 1000, into[128] % 2)?;
    }
    Ok(())
}
"""

root = os.getcwd()
with tempfile.TemporaryDirectory(prefix="filter-") as folder:
    for name in ("wf_base", "wf_lattice"):
        shutil.copytree(f"{root}/crates/{name}", f"{folder}/crates/{name}", ignore=shutil.ignore_patterns("out", "must-fail"))
    os.makedirs(f"{folder}/crates/filter/src")
    with open(f"{folder}/crates/filter/src/main.rt", "w", encoding="utf-8") as it:
        it.write(PROGRAM)
    for part in ("specs", "proofs"):
        os.makedirs(f"{folder}/crates/filter/{part}")
        open(f"{folder}/crates/filter/{part}/Lib.antt", "w").close()
    with open(f"{folder}/crates.txt", "w", encoding="utf-8") as it:
        it.write("wf_base:\nwf_lattice: wf_base\nfilter: wf_base wf_lattice\n")
    subprocess.run(["rt", "run"], cwd=f"{folder}/crates/filter", check=True)
