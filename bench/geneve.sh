#!/usr/bin/env bash
# How long `read` and `write` take for Geneve frames of 1,400 bytes, and how many bytes a second `write` copies. `read`
# lends the inner frame and copies nothing. Not part of the gate.
set -euo pipefail
source "$(dirname "$0")/loops.sh"

build_loop ovn_base geneve_frames <<'EOF'
//! Reads or writes one frame again and again.
#![tactic(auto)]

use geneve_frames::{read, write};
use std::{env, io};

// Network 1 from key 1 to key 2.
const FRONT: [u8; 16] = [
    0x02, 0x40, 0x65, 0x58, 0x00, 0x00, 0x01, 0x00, 0x01, 0x02, 0x80, 0x01, 0x00, 0x01, 0x00, 0x02,
];

// Makes each round's frame another one.
fn stamp(frame: &mut [u8], round: u32) {
    if let Some(last) = frame.last_mut() {
        *last = (round % 256) as u8;
    }
}

fn nothing(frame: &mut [u8], rounds: u32) -> usize {
    let mut seen = 0;
    for round in 0..rounds {
        stamp(frame, round);
        seen ^= frame.len();
    }
    seen
}

fn inner_read(frame: &mut [u8], rounds: u32) -> usize {
    let mut seen = 0;
    for round in 0..rounds {
        stamp(frame, round);
        if let Ok(view) = read(frame) {
            seen ^= view.inner.len();
        }
    }
    seen
}

fn written(inner: &[u8], out: &mut Vec<u8>, rounds: u32) -> usize {
    let mut seen = 0;
    for round in 0..rounds {
        out.clear();
        if write(1, 1, 2, inner, out).is_ok() {
            stamp(out, round);
            seen ^= out.len();
        }
    }
    seen
}

fn main(rt: HostRuntime) -> io::Result<()> {
    let words: Vec<String> = env::args(&rt)?.skip(1).collect(rt.alloc())?;
    let [what, length, rounds] = words.as_slice() else {
        return Ok(());
    };
    let len = length.parse::<usize>().unwrap_or(0);
    let rounds = rounds.parse::<u32>().unwrap_or(0);
    let mut frame = Vec::from_slice(rt.alloc(), &FRONT)?;
    frame.resize(len, b'a')?;
    let seen = match what.as_str() {
        "read" => inner_read(&mut frame, rounds),
        "write" => match read(&frame) {
            Ok(view) => written(view.inner, &mut Vec::with_capacity(rt.alloc(), len)?, rounds),
            Err(_) => 0,
        },
        _ => nothing(&mut frame, rounds),
    };
    println!(rt; "{seen}")?;
    Ok(())
}
EOF

# 16 bytes are headers, and the rest is the inner frame.
read=$(each read 1400 1384 9000001)
write=$(each write 1400 1400 9000001)
echo "1400 bytes: read $read ns, write $write ns or $(awk -v ns="$write" 'BEGIN { printf "%.1f", 1400 / ns }') GB/s"
