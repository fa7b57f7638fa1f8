#!/usr/bin/env bash
# How long `cubes` takes for a match that is other than two addresses, which is 1,024 cubes wide, and for a range of ports, and
# how many bytes a call takes from the heap, by valgrind. Not part of the gate. ROUNDS may name another odd number of rounds.
set -euo pipefail
source "$(dirname "$0")/loops.sh"

build_loop ovn_base inet_packet match_language match_cubes <<'PROGRAM'
//! Gives the cubes of one match again and again.
#![tactic(auto)]

ghost use Rattle.std.specs.Prelude.{◌≡◌, true};
ghost use Rattle.match_cubes.specs.Suited.{are_suited};

use match_cubes::cubes::cubes;
use match_cubes::laws::fitting_is_suited;
use match_cubes::sets::Sets;
use match_language::expr::Expr;
use match_language::field::Direction;
use match_language::reader::parse;
use ovn_base::list::List;
use ovn_base::ports::Ports;
use std::alloc::Global;
use std::{env, io};

fn nothing(length: usize, rounds: u32) -> usize {
    let mut seen = 0;
    for _round in 0..rounds {
        seen ^= length;
    }
    seen
}

fn answer(alloc: Global, expr: &Expr, rounds: u32) -> usize
    requires { are_suited expr.now true ≡ true }
{
    let sets = Sets {
        addresses: List::new(alloc),
        groups: List::new(alloc),
    };
    let ports = Ports {
        list: List::new(alloc),
    };
    let mut seen = 0;
    for _round in 0..rounds {
        if let Ok(all) = cubes(alloc, expr, &sets, &ports) {
            seen ^= all.len();
        }
    }
    seen
}

fn read(alloc: Global, text: &[u8], rounds: u32) -> usize {
    fitting_is_suited();
    match parse(alloc, text, Direction::ToLport) {
        Ok(expr) => answer(alloc, &expr, rounds),
        Err(_) => 0,
    }
}

fn main(rt: HostRuntime) -> io::Result<()> {
    let words: Vec<String> = env::args(&rt)?.skip(1).collect(rt.alloc())?;
    let [what, length, rounds] = words.as_slice() else {
        return Ok(());
    };
    let length = length.parse::<usize>().unwrap_or(0);
    let rounds = rounds.parse::<u32>().unwrap_or(0);
    let seen = match what.as_str() {
        "nothing" => nothing(length, rounds),
        "range" => read(rt.alloc(), b"tcp.dst >= 1024", rounds),
        _ => read(rt.alloc(), b"ip4.src != {10.0.0.1, 10.0.0.2}", rounds),
    };
    println!(rt; "{seen}")?;
    Ok(())
}
PROGRAM

# The bytes that all rounds take from the heap: what, and rounds.
taken() {
  valgrind "$work/crates/timed/out/timed" "$1" 0 "$2" 2>&1 | sed -n 's/.* frees, \([0-9,]*\) bytes allocated/\1/p' | tr -d ,
}

# The bytes that a call takes: what.
bytes() {
  echo $((($(taken "$1" 11) - $(taken "$1" 1)) / 10))
}

# The two addresses differ in two bits, at which no cube is other than both: that leaves 1,022 of the 1,024.
rounds=${ROUNDS:-1001}
unlike=$(each unlike 0 1022 "$rounds")
range=$(each range 0 6 "$rounds")
awk -v ns="$unlike" -v bytes="$(bytes unlike)" 'BEGIN { printf "two addresses: %.1f us, %d bytes\n", ns / 1000, bytes }'
awk -v ns="$range" -v bytes="$(bytes range)" 'BEGIN { printf "port range: %.1f us, %d bytes\n", ns / 1000, bytes }'
