#!/usr/bin/env bash
# How long a packet of a tracked connection takes through 17 tables, 14 of them with 60 flows, and what share of that its 17 look-ups
# take. Not part of the gate.
set -euo pipefail
source "$(dirname "$0")/loops.sh"

make_program ovn_base inet_packet flow_table tuple_space conn_table switch_engine engine_tests hex indexmap <<'EOF'
//! Takes one packet through tables again and again.
#![tactic(auto)]
ghost use Rattle.std.specs.Prelude.{IfOk};
ghost use Rattle.inet_packet.specs.Whole.{IsWhole};
ghost use Rattle.switch_engine.specs.Proper.{IsProper, IsProperFlow};
ghost use Rattle.tuple_space.specs.Bunches.{flows_in};

use engine_tests::proper::is_proper;
use flow_table::flow::{Flow, FlowOp, SharedFlow, ZoneOf};
use flow_table::lookup::Lookup;
use inet_packet::cube::{Bits, Cube};
use inet_packet::decode::decode;
use inet_packet::packet::Packet;
use inet_packet::regs::{At, Reg, RegFlags, Regs};
use ovn_base::delta::Delta;
use ovn_base::list::List;
use ovn_base::memory::NoMemory;
use ovn_base::name::Name;
use std::alloc::Global;
use std::{env, io};
use switch_engine::effect::Entry;
use switch_engine::engine::run;
use switch_engine::walk::RunOut;
use switch_engine::zones::Zones;
use tuple_space::space::TupleSpace;

// From 10.0.0.1 port 5000 to 10.0.0.2 port 5001.
const FRAME: [u8; 42] = [
    0x0a, 0, 0, 0, 0, 2, 0x0a, 0, 0, 0, 0, 1, 0x08, 0, 0x45, 0, 0, 0x1c, 0, 1, 0, 0, 0x40, 0x11, 0x66,
    0xce, 0x0a, 0, 0, 1, 0x0a, 0, 0, 2, 0x13, 0x88, 0x13, 0x89, 0, 8, 0, 0,
];

const LAST_TABLE: u8 = 16;

// The flows of each table between the first two and the last, for as many datapaths.
const FLOWS: u32 = 60;

// The packets of the datapath of the key, those of the state alone where one is given.
fn of(dp: u32, state: Option<u64>) -> Cube {
    let mut cube = Cube::EVERYTHING;
    cube.dp = Bits {
        value: u64::from(dp),
        mask: 0xff_ffff,
    };
    if let Some(value) = state {
        cube.state = Bits { value, mask: 7 };
    }
    cube
}

fn row<const N: usize>(
    alloc: Global,
    table: u8,
    cube: Cube,
    ops: [FlowOp; N],
) -> Result<SharedFlow, NoMemory> {
    Flow::shared(alloc, table, 100, 0, cube, &ops)
}

// The flows: each packet is of datapath 1 and tracked in zone 7, and leaves the port behind the last table.
fn rows(alloc: Global, port: Name) -> Result<Vec<SharedFlow>, NoMemory> {
    let mut rows = Vec::new(alloc);
    let begin = [
        FlowOp::Set {
            reg: Reg::Dp,
            value: 1,
        },
        FlowOp::Set {
            reg: Reg::ZIn,
            value: 7,
        },
        FlowOp::Find(ZoneOf::In),
        FlowOp::Go(1),
    ];
    rows.push(row(alloc, 0, Cube::EVERYTHING, begin)?)?;
    let commit = [FlowOp::Commit(ZoneOf::In), FlowOp::Go(2)];
    rows.push(row(alloc, 1, of(1, Some(1)), commit)?)?;
    let touch = [FlowOp::Touch, FlowOp::Go(2)];
    rows.push(row(alloc, 1, of(1, Some(2)), touch)?)?;
    for table in 2..LAST_TABLE {
        for dp in 1..=FLOWS {
            rows.push(row(alloc, table, of(dp, None), [FlowOp::Go(table + 1)])?)?;
        }
    }
    let leave = FlowOp::output(alloc, port)?;
    rows.push(row(alloc, LAST_TABLE, of(1, None), [leave])?)?;
    Ok(rows)
}

// Adds a proper flow.
fn put(tables: &mut TupleSpace, flow: SharedFlow) -> Result<(), NoMemory>
    requires tables { IsProper (flows_in tables.old.bunches) }
    requires flow { IsProperFlow flow }
    ensures { IsProper (flows_in tables.new.bunches) }
{
    let alloc = flow.get().ops.allocator();
    let mut added = List::new(alloc);
    let mut removed = List::new(alloc);
    removed.push(flow.share()?)?;
    added.push(flow)?;
    let delta = Delta { added, removed };
    tables.prepare(&delta)?;
    tables.replace(delta);
    Ok(())
}

fn tables(alloc: Global, port: Name) -> Result<TupleSpace, NoMemory>
    ensures { IfOk result (λ t. IsProper (flows_in t.bunches)) }
{
    let mut tables = TupleSpace::new(alloc)?;
    let rows = rows(alloc, port)?;
    'rows: for flow in rows {
        if is_proper(&flow) {
            put(&mut tables, flow)?;
        }
    }
    Ok(tables)
}

// The registers with which the packet comes to a table: to the first, and to each other.
fn regs(port: Name, dp: u32, zone: u32, state: u32) -> Regs {
    Regs {
        dp,
        in_port: 0,
        out_port: 0,
        next: 0,
        z_in: zone,
        z_out: 0,
        z_dnat: 0,
        z_snat: 0,
        state,
        verdict: 0,
        tier: 0,
        flags: RegFlags(0),
        at: At::Local(port),
    }
}

// How many packets came through with one effect and 17 steps.
fn walked(
    alloc: Global,
    tables: &TupleSpace,
    port: Name,
    packet: &Packet,
    rounds: u32,
) -> Result<u32, NoMemory>
    requires tables { IsProper (flows_in tables.now.bunches) }
    requires packet { IsWhole packet.now }
{
    let mut zones = Zones::new(alloc);
    zones.reserve(1)?;
    zones.empty(7);
    let entry = Entry::Vif(port);
    let mut seen: u32 = 0;
    for round in 0..rounds {
        let mut out = RunOut::new(alloc);
        let copy = packet.copy()?;
        run(
            alloc,
            tables,
            &mut zones,
            &entry,
            copy,
            u64::from(round),
            &mut out,
        )?;
        if out.effects.len() == 1 && out.walk.len() == 17 {
            seen = seen.wrapping_add(1);
        }
    }
    Ok(seen)
}

// How many packets find a flow in each of the 17 tables.
fn found(tables: &TupleSpace, port: Name, packet: &Packet, rounds: u32) -> u32 {
    let mut first = regs(port, 0, 0, 0);
    let mut later = regs(port, 1, 7, 2);
    let mut seen: u32 = 0;
    for round in 0..rounds {
        // No flow asks for the next hop; so no round is like the one before.
        first.next = round;
        later.next = round;
        let mut all = tables.lookup(0, &first, packet).is_some();
        for table in 1..=LAST_TABLE {
            all &= tables.lookup(table, &later, packet).is_some();
        }
        if all {
            seen = seen.wrapping_add(1);
        }
    }
    seen
}

// How many copies of the packet could be made.
fn copied(packet: &Packet, rounds: u32) -> Result<u32, NoMemory> {
    let mut seen: u32 = 0;
    for _ in 0..rounds {
        let copy = packet.copy()?;
        if copy.tail.is_empty() {
            seen = seen.wrapping_add(1);
        }
    }
    Ok(seen)
}

fn seen(alloc: Global, port: Name, what: &str, rounds: u32) -> Result<u32, NoMemory> {
    let Ok(packet) = decode(alloc, &FRAME) else {
        return Ok(0);
    };
    let tables = tables(alloc, port)?;
    match what {
        "walk" => walked(alloc, &tables, port, &packet, rounds),
        "look-ups" => Ok(found(&tables, port, &packet, rounds)),
        _ => copied(&packet, rounds),
    }
}

fn main(rt: HostRuntime) -> io::Result<()> {
    let words: Vec<String> = env::args(&rt)?.skip(1).collect(rt.alloc())?;
    let [what, _, rounds] = words.as_slice() else {
        return Ok(());
    };
    let rounds = rounds.parse::<u32>().unwrap_or(0);
    let Some(port) = Name::read(b"p1") else {
        return Ok(());
    };
    let told = seen(rt.alloc(), port, what.as_str(), rounds).unwrap_or(0);
    println!(rt; "{told}")?;
    Ok(())
}
EOF

# Flows that are put in are proper as those in the tests are.
mkdir -p "$work/crates/timed/proofs/put" "$work/crates/timed/proofs/tables"
sed 's/engine_tests\.proofs\.rows\.put/timed.proofs.put/' "$top/crates/engine_tests/proofs/rows/put/Answers.antt" \
  >"$work/crates/timed/proofs/put/Answers.antt"
cat >"$work/crates/timed/proofs/tables/Invariants.antt" <<'EOF'
use Rattle.switch_engine.specs.Proper.{IsProper}
use Rattle.tuple_space.specs.Bunches.{flows_in}
use Rattle.timed.proofs.tables.Given as goal

abbrev pub invariant-rows : goal.invariant-rows
invariant-rows l = IsProper (flows_in l.tables.bunches)
EOF
build_program

# The ns that a round takes: what, and rounds, over what one takes with all that goes before it.
over_one() {
  local full one
  full=$(least "$1" 64 "$2" "$2")
  one=$(least "$1" 64 1 1)
  awk -v full="$full" -v one="$one" -v rounds="$2" 'BEGIN { printf "%.1f", (full - one) / (rounds - 1) }'
}

# A round of the walk also copies the packet.
walk=$(over_one walk 300001)
lookups=$(over_one look-ups 300001)
copy=$(over_one copies 300001)
awk -v walk="$walk" -v lookups="$lookups" -v copy="$copy" 'BEGIN {
  printf "a packet through 17 flows: %.0f ns, of which its look-ups take %.0f in 100\n", walk - copy, 100 * lookups / (walk - copy)
}'
