#!/usr/bin/env bash
# Lets each allocation of a run fail in turn, and compares the texts. An event that is refused for want of memory is given again, and
# so is every other call that is; the text is to be that of the run in which nothing fails. Not part of the gate. The sources are
# compiled once, without a proof and with checks that make them slow: a run takes one to two seconds. The words are how many allocations
# may fail, the first of them first, and the step from one to the next.
#
# `rt try --fail-alloc` is told once which allocation fails. So each run begins with allocations that do nothing, as many as leave
# wanted ones up to the failing one.
set -euo pipefail
source "$(dirname "$0")/loops.sh"

make_program ovn_base inet_packet geneve_frames match_language flow_refs match_cubes conn_table conn_zones tunnel_keys flow_table tuple_space nb_records nb_rules net_model nb_edits physical_flows sim_laws edit_reader switch_engine event_lines chassis_sim world_setup world_core serde_json json indexmap hex itoa arrayvec bitflags byteorder thiserror <<'PROGRAM'
//! Takes the events of its lines. What is refused for want of memory is done again. At the end it writes the texts of the events, and
//! then of each chassis how many flows it holds, and a sum over them. Its word is the number of allocations that do nothing.
#![tactic(auto)]

use edit_reader::event::{Event, ReadError};
use edit_reader::read::read_event;
use event_lines::refusal::StepFault;
use ovn_base::steps::Steps;
use std::alloc::Global;
use std::fmt::Write as _;
use std::io::{self, Read, Write};
use std::process::ExitCode;
use std::env;
use world_core::world::World;

/// Nothing was refused for want of memory.
const NOTHING: u8 = 0;

/// One of the allocations that do nothing was.
const BEFORE: u8 = 10;

/// A call that is no step.
const OTHER: u8 = 20;

/// A step that moves packets, after which no event may be given.
const PACKETS: u8 = 30;

/// What is written at the end.
const AFTER: u8 = 40;

/// More than one call was refused.
const TWICE: u8 = 98;

/// After a refusal the world wasn't sound, or the text was another.
const WRONG: u8 = 99;

/// The step of event N: this and N.
const STEP: u8 = 100;

/// Names the count of the events that were taken.
struct Events;

/// What was refused for want of memory.
#[derive(Drop)]
struct Met {
    status: u8,
}

impl Met {
    fn meet(&mut self, status: u8) {
        self.status = if self.status == NOTHING { status } else { TWICE };
    }
}

// Makes as many allocations, and answers whether one of them failed.
fn spend(alloc: Global, count: u64) -> bool {
    let mut is_failed = false;
    for at in 0..count {
        let mut vec: Vec<u64> = Vec::new(alloc);
        if vec.push(at).is_err() {
            is_failed = true;
        }
    }
    is_failed
}

// Puts the bytes at the end of the vector.
fn put(bytes: &[u8], out: &mut Vec<u8>, met: &mut Met) {
    if out.extend_from_slice(bytes).is_err() {
        met.meet(OTHER);
        if out.extend_from_slice(bytes).is_err() {
            met.meet(TWICE);
        }
    }
}

// The event of the line.
fn read(alloc: Global, line: &[u8], met: &mut Met) -> Option<Event> {
    for _ in 0..2u8 {
        match read_event(alloc, line) {
            Ok(event) => return Some(event),
            Err(ReadError::Refused(fault)) => return Some(Event::Unread(fault)),
            Err(ReadError::Memory) => met.meet(OTHER),
        }
    }
    None
}

// The empty world.
fn begin(alloc: Global, met: &mut Met) -> Option<World> {
    for _ in 0..2u8 {
        match World::new(alloc) {
            Ok(world) => return Some(world),
            Err(_) => met.meet(OTHER),
        }
    }
    None
}

fn moves_packets(event: &Event) -> bool {
    matches!(
        event,
        Event::Inject { .. }
            | Event::Deliver { .. }
            | Event::Repeat { .. }
            | Event::Drain
            | Event::Packet { .. }
    )
}

// Gives the event, and gives it again where memory was wanted. It answers whether the run may go on.
fn give(world: &mut World, event: &Event, number: u8, text: &mut Vec<u8>, met: &mut Met) -> bool {
    let mut steps: Steps<Events> = Steps::new();
    for _ in 0..2u8 {
        let length = text.len();
        let events = world.events();
        match world.step(event, text, &mut steps) {
            Ok(()) | Err(StepFault::Refused(_)) => return true,
            Err(StepFault::Memory) if moves_packets(event) => {
                met.meet(PACKETS);
                return false;
            }
            Err(StepFault::Memory) => met.meet(STEP.saturating_add(number)),
        }
        if !world.is_sound() || text.len() != length || world.events() != events {
            met.status = WRONG;
            return false;
        }
    }
    false
}

// A sum over the flows that a chassis holds, whatever their order, and how many there are.
fn sum_flows(alloc: Global, world: &World, index: usize, out: &mut String) -> io::Result<()> {
    let Some(chassis) = world.chassis(index) else {
        return Ok(());
    };
    let mut count: usize = 0;
    let mut sum: u64 = 0;
    for at in 0..1_000_000usize {
        let Some(flow) = world.chassis_flow(chassis, at) else {
            break;
        };
        let mut words = String::new(alloc);
        write!(words, "{flow:?}")?;
        let mut hash: u64 = 0xcbf2_9ce4_8422_2325;
        for byte in words.as_bytes() {
            hash = (hash ^ u64::from(*byte)).wrapping_mul(0x0100_0000_01b3);
        }
        sum = sum.wrapping_add(hash);
        count = count.wrapping_add(1);
    }
    write!(out, "chassis {chassis} flows={count} sum={sum}\n")?;
    Ok(())
}

fn put_flows(alloc: Global, world: &World, text: &mut Vec<u8>, met: &mut Met) {
    for index in 0..64usize {
        for _ in 0..2u8 {
            let mut out = String::new(alloc);
            if sum_flows(alloc, world, index, &mut out).is_err() {
                met.meet(AFTER);
                continue;
            }
            put(out.as_bytes(), text, met);
            break;
        }
    }
}

// Takes all events, as far as it goes.
fn take_all(alloc: Global, input: &[u8], text: &mut Vec<u8>, met: &mut Met) {
    let Some(mut world) = begin(alloc, met) else {
        return;
    };
    let mut number: u8 = 0;
    for line in input.split(|byte| *byte == b'\n') {
        if line.is_empty() {
            continue;
        }
        number = number.wrapping_add(1);
        let Some(event) = read(alloc, line, met) else {
            return;
        };
        if !give(&mut world, &event, number, text, met) {
            return;
        }
    }
    put_flows(alloc, &world, text, met);
}

fn main(rt: HostRuntime) -> io::Result<ExitCode> {
    let alloc = rt.alloc();
    let words: Vec<String> = env::args(&rt)?.skip(1).collect(alloc)?;
    let count = match words.get(0) {
        Some(word) => word.as_str().parse().unwrap_or(0),
        None => 0,
    };
    let mut met = Met { status: NOTHING };
    if spend(alloc, count) {
        met.meet(BEFORE);
    }
    let mut input: Vec<u8> = Vec::new(alloc);
    let mut reader = rt.reader();
    let mut chunk = [0u8; 512];
    for _ in 0..u32::MAX {
        let read = reader.read(&mut chunk)?;
        if read == 0 {
            break;
        }
        put(chunk.get(..read).unwrap_or(&[]), &mut input, &mut met);
    }
    let mut text: Vec<u8> = Vec::new(alloc);
    take_all(alloc, input.as_slice(), &mut text, &mut met);
    io::writer(&rt).write_all(text.as_slice())?;
    Ok(ExitCode::from(met.status))
}
PROGRAM

cat >"$work/events" <<'EVENTS'
{"edit":[{"add":"switch","name":"office"},{"add":"switch_port","name":"web1","switch":"office","addresses":["0a:00:00:00:00:01 10.0.0.1"]},{"add":"switch_port","name":"db1","switch":"office","addresses":["0a:00:00:00:00:02 10.0.0.2"]},{"add":"address_set","name":"clients","addresses":["10.0.0.0/28","192.0.2.7"]},{"add":"port_group","name":"web","ports":["web1"]}]}
{"chassis":{"add":"hv1"}}
{"chassis":{"add":"hv2"}}
{"bind":{"port":"web1","chassis":"hv1"}}
{"bind":{"port":"db1","chassis":"hv2"}}
{"edit":[{"set":"switch_port","name":"db1","addresses":["0a:00:00:00:00:03 10.0.0.3"]},{"add":"switch_port","name":"uplink","switch":"office","addresses":["unknown"]}]}
{"bind":{"port":"uplink","chassis":"hv1"}}
{"inject":{"port":"web1","frame":"0a00000000030a000000000188b56869"}}
{"edit":[{"add":"switch","name":"attic"},{"set":"port_group","name":"web","ports":["web1","web3"]}]}
{"edit":[{"add":"switch","name":"lab"},{"add":"switch_port","name":"lab1","switch":"lab","addresses":["0a:00:00:00:00:01 10.0.0.1"]},{"add":"switch_port","name":"lab2","switch":"lab","addresses":["0a:00:00:00:00:02 10.0.0.2"]}]}
{"chassis":{"add":"hv3"}}
{"bind":{"port":"lab1","chassis":"hv3"}}
{"bind":{"port":"uplink","chassis":"hv3"}}
{"bind":{"port":"nobody","chassis":"hv3"}}
{"chassis":{"add":"hv3"}}
{"drain":{}}
{"packet":{"port":"web1","frame":"0a00000000030a000000000188b56869"}}
{"packet":{"port":"web1","frame":"0a00000000090a000000000188b56869"}}
{"packet":{"port":"lab1","frame":"0a00000000020a000000000188b56869"}}
EVENTS

last=${1:-4200}
stride=${2:-20}
far=8000
if ((last >= far)); then
  echo "at most $((far - 1)) allocations may fail" >&2
  exit 64
fi
mkdir "$work/cases"
for ((number = 0; number <= last; number += stride)); do
  printf -v name '%06d' "$number"
  ln "$work/events" "$work/cases/$name"
  # Where the number is 0, nothing fails.
  printf '%06d\n' "$((number ? far - number : 0))" >"$work/cases/$name.args"
done
cd "$work/crates/timed"
"${RT:-rt}" try --seconds 3600 --fail-alloc "$far" --cases "$work/cases" >"$work/said" 2>"$work/lines" || true

# What the runs met, from their statuses, and where their texts differ from that of the first, in which nothing fails.
awk -v stride="$stride" '
  FILENAME == ARGV[1] {
    split($0, parts, "\"")
    kind[FNR] = parts[2]
    next
  }
  FILENAME == ARGV[2] {
    if ($0 !~ /^case=/) next
    split($0, parts, /[= ]/)
    runs++
    final = parts[2]
    if (parts[4] != "ended") { faults++; print "N=" parts[2] ": " $0 } else status[parts[2]] = parts[6]
    next
  }
  /^== [0-9]+$/ { name = $2; next }
  { text[name] = text[name] $0 "\n" }
  END {
    whole = text["000000"]
    if (status["000000"] != 0 || whole !~ /\nchassis /) { print "the run without refusals did not end"; exit 70 }
    for (number = stride; number <= final + 0; number += stride) {
      name = sprintf("%06d", number)
      if (!(name in status)) continue
      code = status[name]
      if (code == 10) { before++; continue }
      failed++
      if (code == 0) { unseen++; where[unseen] = number - before }
      else if (code == 20) other++
      else if (code == 30) { packets++; continue }
      else if (code == 40) at_end++
      else if (code > 100) { in_step++; steps[code - 100]++ }
      else { wrong++; print "N=" number - before ": status " code }
      if (text[name] != whole) {
        differences++
        print "N=" number - before ", status " code ", has the text\n" text[name]
      }
    }
    print runs - 1 - before " allocations failed, one in each run"
    print in_step + 0 " refused a step that moves no packets:"
    for (event = 1; event in kind; event++)
      if (event in steps) printf "  event %d (%s%s): %d\n", event, kind[event], index(whole, "\n" event " refused ") ? ", which is refused" : "", steps[event]
    print other + 0 " refused another call before the end, " at_end + 0 " what is written at the end"
    print packets + 0 " refused a step that moves packets: such a run ends there, and is not compared"
    printf "%d refused no call", unseen
    for (at = 1; at <= unseen; at++) printf "%s%d", at == 1 ? ": N=" : " ", where[at]
    print ""
    print "unsound or longer texts: " wrong + 0 ", faults: " faults + 0
    print "differences: " differences + 0
    if (final + 0 && status[final] != 40) { print "allocations behind the last may be left: give more than " final + 0; exit 70 }
    if (wrong + faults + differences) exit 1
  }
' "$work/events" "$work/lines" "$work/said"
