#!/usr/bin/env bash
# How long `find`, `commit` and `expire` take in lists of 1,000 and of 65,536 connections. Not part of the gate.
set -euo pipefail
source "$(dirname "$0")/loops.sh"

build_loop ovn_base inet_packet conn_table <<'EOF'
//! Looks connections up, begins them, or ends the idle ones, again and again.
#![tactic(auto)]
ghost use Rattle.conn_table.specs.Connections.{IsPair};

use conn_table::connection::State;
use conn_table::tuple::{Protocol, Tuple};
use conn_table::zone::Zone;
use ovn_base::address::Ip4;
use std::{env, io};

// The tuples of a UDP connection, one for each number below 65,536; they aren't in order.
fn pair(number: u32) -> (Tuple, Tuple)
    ensures { IsPair result.0 result.1 }
{
    let port = (number.wrapping_mul(7919) % 65536) as u16;
    let forward = Tuple {
        protocol: Protocol::Udp,
        src: Ip4(0x0a00_0001),
        src_port: port,
        dst: Ip4(0x0a00_0002),
        dst_port: 53,
    };
    let reply = Tuple {
        protocol: Protocol::Udp,
        src: Ip4(0x0a00_0002),
        src_port: 53,
        dst: Ip4(0x0a00_0001),
        dst_port: port,
    };
    (forward, reply)
}

fn begin(list: &mut Zone, number: u32) -> u32 {
    let (forward, reply) = pair(number);
    if let State::New = list.find(Some(&forward)) {
        return match list.commit(forward, reply, 0) {
            Ok(_) => 1,
            Err(_) => 0,
        };
    }
    0
}

fn fill(list: &mut Zone, entries: u32) -> u32 {
    list.clear();
    let mut seen: u32 = 0;
    for number in 0..entries {
        seen = seen.wrapping_add(begin(list, number));
    }
    seen
}

fn filled(list: &mut Zone, entries: u32, rounds: u32) -> u32 {
    let mut seen: u32 = 0;
    for _ in 0..rounds {
        seen = seen.wrapping_add(fill(list, entries));
    }
    seen
}

fn found(list: &Zone, entries: u32, rounds: u32) -> u32 {
    let mut seen: u32 = 0;
    for round in 0..rounds {
        let (forward, _) = pair(round.wrapping_mul(31) % entries.max(1));
        if let State::Forward(_) = list.find(Some(&forward)) {
            seen = seen.wrapping_add(1);
        }
    }
    seen
}

fn expired(list: &mut Zone, rounds: u32) -> u32 {
    let mut seen: u32 = 0;
    for round in 0..rounds {
        list.expire(u64::from(round % 60));
        seen = seen.wrapping_add(1);
    }
    seen
}

fn nothing(entries: u32, rounds: u32) -> u32 {
    let mut seen = 0;
    for _ in 0..rounds {
        seen ^= entries;
    }
    seen
}

fn main(rt: HostRuntime) -> io::Result<()> {
    let words: Vec<String> = env::args(&rt)?.skip(1).collect(rt.alloc())?;
    let [what, entries, rounds] = words.as_slice() else {
        return Ok(());
    };
    let entries = entries.parse::<u32>().unwrap_or(0);
    let rounds = rounds.parse::<u32>().unwrap_or(0);
    let Ok(mut list) = Zone::new(rt.alloc()) else {
        return Ok(());
    };
    fill(&mut list, entries);
    let seen = match what.as_str() {
        "commit" => filled(&mut list, entries, rounds),
        "find" => found(&list, entries, rounds),
        "expire" => expired(&mut list, rounds),
        _ => nothing(entries, rounds),
    };
    println!(rt; "{seen}")?;
    Ok(())
}
EOF

# A round of commit fills the whole list, each commit behind its find. The numbers of rounds are odd.
while read -r entries finds fills expiries; do
  find=$(each find "$entries" "$finds" "$finds")
  fill=$(each commit "$entries" $((fills * entries)) "$fills")
  expire=$(each expire "$entries" "$expiries" "$expiries")
  commit=$(awk -v fill="$fill" -v entries="$entries" 'BEGIN { printf "%.1f", fill / entries }')
  echo "$entries entries: find $find ns, commit $commit ns, expire $expire ns"
done <<<"1000 3000001 1001 5001
65536 3000001 11 61"
