#!/usr/bin/env bash
# How long `read_event` takes for edits of 1 and of 64 ports or rules and for packets of 64 and of 1,400 bytes, and beside it how long
# `serde_json` takes alone to read the same lines as values. Not part of the gate.
set -euo pipefail
source "$(dirname "$0")/loops.sh"

build_loop ovn_base match_language nb_records edit_reader serde_json <<'EOF'
//! Reads one line again and again.
#![tactic(auto)]

use edit_reader::event::Event;
use edit_reader::read::read_event;
use serde_json::Value;
use std::alloc::{AllocError, Global};
use std::{env, io};

const PORT: &[u8] =
    b"{\"add\":\"switch_port\",\"name\":\"p1\",\"switch\":\"s0\",\"addresses\":[\"0a:00:00:00:00:01 10.0.0.1\",\"unknown\"],\"port_security\":[\"0a:00:00:00:00:01 10.0.0.1 10.0.1.0/24\"]}";

const RULE: &[u8] =
    b"{\"add\":\"acl\",\"name\":\"a1\",\"switch\":\"s0\",\"direction\":\"to-lport\",\"priority\":1000,\"match\":\"ip4 && tcp.dst == {80, 443} && ip4.src == $web\",\"action\":\"allow-related\"}";

// An edit of so many operations.
fn edit(alloc: Global, operation: &[u8], operations: usize) -> Result<Vec<u8>, AllocError> {
    let mut line = Vec::from_slice(alloc, b"{\"edit\":[")?;
    for index in 0..operations {
        if index > 0 {
            line.push(b',')?;
        }
        line.extend_from_slice(operation)?;
    }
    line.extend_from_slice(b"]}")?;
    Ok(line)
}

// A packet of so many bytes.
fn packet(alloc: Global, bytes: usize) -> Result<Vec<u8>, AllocError> {
    let mut line = Vec::from_slice(alloc, b"{\"packet\":{\"port\":\"p1\",\"frame\":\"")?;
    for _byte in 0..bytes {
        line.extend_from_slice(b"0a")?;
    }
    line.extend_from_slice(b"\"}}")?;
    Ok(line)
}

fn nothing(parts: usize, rounds: u32) -> usize {
    let mut seen = 0;
    for _round in 0..rounds {
        seen ^= parts;
    }
    seen
}

// How many operations or bytes the event has.
fn parts_of(event: &Event) -> usize {
    match event {
        Event::Edit(ops) => ops.len(),
        Event::Packet { frame, .. } => frame.len(),
        _ => 0,
    }
}

fn read(alloc: Global, line: &[u8], rounds: u32) -> usize {
    let mut seen = 0;
    for _round in 0..rounds {
        if let Ok(event) = read_event(alloc, line) {
            seen ^= parts_of(&event);
        }
    }
    seen
}

// How many operations or bytes the value has.
fn parts_in(value: &Value) -> usize {
    if let Some(ops) = value.get("edit").and_then(Value::as_array) {
        return ops.as_slice().len();
    }
    match value.get("packet").and_then(|inner| inner.get("frame")) {
        Some(frame) => frame.as_str().unwrap_or("").len() / 2,
        None => 0,
    }
}

fn read_value(alloc: Global, line: &[u8], rounds: u32) -> usize {
    let mut seen = 0;
    for _round in 0..rounds {
        if let Ok(value) = Value::from_slice(alloc, line) {
            seen ^= parts_in(&value);
        }
    }
    seen
}

fn main(rt: HostRuntime) -> io::Result<()> {
    let words: Vec<String> = env::args(&rt)?.skip(1).collect(rt.alloc())?;
    let [what, parts, rounds] = words.as_slice() else {
        return Ok(());
    };
    let parts = parts.parse::<usize>().unwrap_or(0);
    let rounds = rounds.parse::<u32>().unwrap_or(0);
    let (how, kind) = what.as_str().split_once('-').unwrap_or(("", ""));
    let line = match kind {
        "port" => edit(rt.alloc(), PORT, parts)?,
        "rule" => edit(rt.alloc(), RULE, parts)?,
        _ => packet(rt.alloc(), parts)?,
    };
    let seen = match how {
        "event" => read(rt.alloc(), line.as_slice(), rounds),
        "value" => read_value(rt.alloc(), line.as_slice(), rounds),
        "size" => line.len(),
        _ => nothing(parts, rounds),
    };
    println!(rt; "{seen}")?;
    Ok(())
}
EOF

# The kind of line, how many operations or bytes it has, how many rounds there are, and its name.
row() {
  local size event value
  size=$("$work/crates/timed/out/timed" "size-$1" "$2" 1)
  event=$(each "event-$1" "$2" "$2" "$3")
  value=$(each "value-$1" "$2" "$2" "$3")
  awk -v name="$4" -v size="$size" -v event="$event" -v value="$value" \
    'BEGIN { printf "%s, %d bytes: read_event %.0f ns, %.0f MB/s; serde_json alone %.0f ns, %.0f MB/s\n",
      name, size, event, size * 1e3 / event, value, size * 1e3 / value }'
}

echo "$(nproc) processors, load $(cut -d' ' -f1-3 /proc/loadavg)"
row port 1 20001 "an edit of one port"
row port 64 401 "an edit of 64 ports"
row rule 1 20001 "an edit of one rule"
row rule 64 401 "an edit of 64 rules"
row packet 64 20001 "a packet of 64 bytes"
row packet 1400 2001 "a packet of 1,400 bytes"
