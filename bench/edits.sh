#!/usr/bin/env bash
# How long a plan takes that adds one port, and one that adds 64, up to 1,000 and up to 10,000 ports on 100 switches, and how much
# memory it takes: the peak over that of a run that plans nothing. Not part of the gate.
set -euo pipefail
source "$(dirname "$0")/loops.sh"

build_loop ovn_base inet_packet match_language match_cubes conn_table flow_table nb_records nb_rules net_model tunnel_keys nb_edits <<'EOF'
//! Plans one edit on records of many ports, again and again.
#![tactic(auto)]

use nb_edits::edit::plan;
use nb_records::change::Op;
use nb_records::record::Record;
use nb_records::records::Records;
use nb_records::switch::{PortAddress, PortKind, Switch, SwitchPort};
use ovn_base::address::{Birth, Ip4, Mac};
use ovn_base::list::List;
use ovn_base::memory::NoMemory;
use ovn_base::name::Name;
use std::alloc::Global;
use std::{env, io};

// The name of that number.
fn name(alloc: Global, kind: &str, number: u32) -> Result<Name, NoMemory> {
    let text = format!(in alloc; "{kind}{number}")?;
    Name::read(text.as_bytes()).ok_or(NoMemory)
}

// The port of that number, with addresses of its own.
fn port(alloc: Global, number: u32) -> Result<Record, NoMemory> {
    let [_, high, middle, low] = number.to_be_bytes();
    let mut ips = List::new(alloc);
    ips.push(Ip4(0x0a00_0000 | (number & 0xff_ffff)))?;
    let mut addresses = List::new(alloc);
    addresses.push(PortAddress::Ether {
        mac: Mac([0x0a, 0, 0, high, middle, low]),
        ips,
    })?;
    Ok(Record::SwitchPort(SwitchPort {
        name: name(alloc, "port-", number)?,
        birth: Birth(1),
        switch: name(alloc, "s", number % 100)?,
        kind: PortKind::Virtual,
        router_port: None,
        addresses,
        port_security: List::new(alloc),
        enabled: true,
    }))
}

// So many ports on 100 switches.
fn network(alloc: Global, ports: u32) -> Result<Records, NoMemory> {
    let mut records = Records::new(alloc)?;
    for number in 0..100 {
        records.put(Record::Switch(Switch {
            name: name(alloc, "s", number)?,
            birth: Birth(1),
        }))?;
    }
    for number in 0..ports {
        records.put(port(alloc, number)?)?;
    }
    Ok(records)
}

// So many ports more.
fn more(alloc: Global, ports: u32, count: u32) -> Result<List<Op>, NoMemory> {
    let mut ops = List::new(alloc);
    for number in 0..count {
        ops.push(Op::Add(port(alloc, ports.wrapping_add(number))?))?;
    }
    Ok(ops)
}

// How many ports come by the edit in all rounds.
fn planned(alloc: Global, records: &mut Records, ops: &[Op], rounds: u32) -> usize {
    let mut seen: usize = 0;
    for _round in 0..rounds {
        if let Ok(plan) = plan(alloc, records, ops, 2) {
            seen = seen.wrapping_add(plan.added().len());
        }
    }
    seen
}

fn nothing(ports: u32, rounds: u32) -> usize {
    let mut seen: u32 = 0;
    for _round in 0..rounds {
        seen ^= ports;
    }
    seen as usize
}

fn run(alloc: Global, what: &str, ports: u32, rounds: u32) -> Result<usize, NoMemory> {
    let mut records = network(alloc, ports)?;
    let count = if what == "many" { 64 } else { 1 };
    let ops = more(alloc, ports, count)?;
    if what == "nothing" {
        Ok(nothing(ports, rounds))
    } else {
        Ok(planned(alloc, &mut records, ops.as_slice(), rounds))
    }
}

fn main(rt: HostRuntime) -> io::Result<()> {
    let words: Vec<String> = env::args(&rt)?.skip(1).collect(rt.alloc())?;
    let [what, ports, rounds] = words.as_slice() else {
        return Ok(());
    };
    let ports = ports.parse::<u32>().unwrap_or(0);
    let rounds = rounds.parse::<u32>().unwrap_or(0);
    if let Ok(seen) = run(rt.alloc(), what.as_str(), ports, rounds) {
        println!(rt; "{seen}")?;
    }
    Ok(())
}
EOF

# The peak of the memory of a run, in KiB: what, and how many ports are there.
peak() {
  python3 - "$work/crates/timed/out/timed" "$1" "$2" <<'EOF'
import resource, subprocess, sys
subprocess.run(sys.argv[1:] + ["1"], check=True, stdout=subprocess.DEVNULL)
print(resource.getrusage(resource.RUSAGE_CHILDREN).ru_maxrss)
EOF
}

# The load says whether the machine has other work.
echo "load $(cut -d' ' -f1 /proc/loadavg)"
while read -r most rounds; do
  for count in 1 64; do
    ports=$((most - count))
    what=$([[ $count == 1 ]] && echo one || echo many)
    time=$(each "$what" "$ports" $((count * rounds)) "$rounds")
    memory=$(($(peak "$what" "$ports") - $(peak nothing "$ports")))
    awk -v time="$time" -v memory="$memory" -v count="$count" -v ports="$ports" \
      'BEGIN { printf "%d added beside %d ports: %.0f us, %d KiB\n", count, ports, time / 1000, memory }'
  done
done <<<"1000 101
10000 ${ROUNDS:-3}"
