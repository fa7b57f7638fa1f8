#!/usr/bin/env bash
# How long `parse` takes for texts of 250,000, 500,000 and 1,000,000 bytes: terms that `&&` joins, and numbers in braces. Not
# part of the gate.
set -euo pipefail
source "$(dirname "$0")/loops.sh"

build_loop ovn_base match_language <<'EOF'
//! Reads one text again and again.
#![tactic(auto)]

use match_language::expr::Expr;
use match_language::field::Direction;
use match_language::reader::parse;
use std::alloc::Global;
use std::{env, io};

fn nothing(parts: usize, rounds: u32) -> usize {
    let mut seen = 0;
    for _round in 0..rounds {
        seen ^= parts;
    }
    seen
}

// How many terms or values there are.
fn parts_of(expr: &Expr) -> usize {
    match expr {
        Expr::All(terms) => terms.len(),
        Expr::Compare { values, .. } => values.len(),
        _ => 0,
    }
}

fn read(alloc: Global, text: &[u8], rounds: u32) -> usize {
    let mut seen = 0;
    for _round in 0..rounds {
        if let Ok(expr) = parse(alloc, text, Direction::ToLport) {
            seen ^= parts_of(&expr);
        }
    }
    seen
}

fn main(rt: HostRuntime) -> io::Result<()> {
    let words: Vec<String> = env::args(&rt)?.skip(1).collect(rt.alloc())?;
    let [what, parts, rounds] = words.as_slice() else {
        return Ok(());
    };
    let parts = parts.parse::<usize>().unwrap_or(0);
    let rounds = rounds.parse::<u32>().unwrap_or(0);
    let (first, part, last) = match what.as_str() {
        "terms" => (b"ip4".as_slice(), b" && ip4".as_slice(), b"".as_slice()),
        _ => (b"tcp.dst == {80".as_slice(), b", 443".as_slice(), b"}".as_slice()),
    };
    let mut text = Vec::from_slice(rt.alloc(), first)?;
    for _part in 0..parts {
        text.extend_from_slice(part)?;
    }
    text.extend_from_slice(last)?;
    let seen = if what.as_str() == "nothing" {
        nothing(parts, rounds)
    } else {
        read(rt.alloc(), text.as_slice(), rounds)
    };
    println!(rt; "{seen}")?;
    Ok(())
}
EOF

# A term more takes 7 bytes, and a number more 5.
for bytes in 250000 500000 1000000; do
  terms=$(each terms $((bytes / 7)) $((bytes / 7 + 1)) 21)
  values=$(each values $((bytes / 5)) $((bytes / 5 + 1)) 21)
  awk -v bytes="$bytes" -v terms="$terms" -v values="$values" \
    'BEGIN { printf "%d bytes: terms %.2f ms, numbers in braces %.2f ms\n", bytes, terms / 1e6, values / 1e6 }'
done
