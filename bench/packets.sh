#!/usr/bin/env bash
# How long `decode` and `encode` take for UDP frames of 64 and of 1,400 bytes. Not part of the gate.
set -euo pipefail
source "$(dirname "$0")/loops.sh"

build_loop ovn_base inet_packet <<'EOF'
//! Reads or writes one frame again and again.
#![tactic(auto)]

use inet_packet::decode::decode;
use inet_packet::encode::encode;
use inet_packet::packet::Packet;
use std::alloc::Global;
use std::{env, io};

// From 10.0.0.1 port 5000 to 10.0.0.2 port 5001, up to the data, in a frame of 64 bytes and in one of 1,400.
const SHORT: [u8; 42] = [
    0x0a, 0, 0, 0, 0, 2, 0x0a, 0, 0, 0, 0, 1, 0x08, 0, 0x45, 0, 0, 0x32, 0, 1, 0, 0, 0x40, 0x11,
    0x66, 0xb8, 0x0a, 0, 0, 1, 0x0a, 0, 0, 2, 0x13, 0x88, 0x13, 0x89, 0, 0x1e, 0, 0,
];
const LONG: [u8; 42] = [
    0x0a, 0, 0, 0, 0, 2, 0x0a, 0, 0, 0, 0, 1, 0x08, 0, 0x45, 0, 0x05, 0x6a, 0, 1, 0, 0, 0x40, 0x11,
    0x61, 0x80, 0x0a, 0, 0, 1, 0x0a, 0, 0, 2, 0x13, 0x88, 0x13, 0x89, 0x05, 0x56, 0, 0,
];

// Makes each round's frame another one.
fn stamp(frame: &mut [u8], round: u32) {
    if let Some(last) = frame.last_mut() {
        *last = (round % 256) as u8;
    }
}

fn nothing(frame: &mut [u8], rounds: u32) -> usize {
    let mut seen = 0;
    for round in 0..rounds {
        stamp(frame, round);
        seen ^= frame.len();
    }
    seen
}

fn decoded(alloc: Global, frame: &mut [u8], rounds: u32) -> usize {
    let mut seen = 0;
    for round in 0..rounds {
        stamp(frame, round);
        if let Ok(packet) = decode(alloc, frame) {
            seen ^= packet.tail.len();
        }
    }
    seen
}

fn encoded(packet: &Packet, out: &mut Vec<u8>, rounds: u32) -> usize {
    let mut seen = 0;
    for round in 0..rounds {
        out.clear();
        if encode(packet, out).is_ok() {
            stamp(out, round);
            seen ^= out.len();
        }
    }
    seen
}

fn main(rt: HostRuntime) -> io::Result<()> {
    let words: Vec<String> = env::args(&rt)?.skip(1).collect(rt.alloc())?;
    let [what, length, rounds] = words.as_slice() else {
        return Ok(());
    };
    let (front, len) = if length.as_str() == "64" {
        (SHORT, 64)
    } else {
        (LONG, 1400)
    };
    let mut frame = Vec::from_slice(rt.alloc(), &front)?;
    frame.resize(len, b'a')?;
    let rounds = rounds.parse::<u32>().unwrap_or(0);
    let seen = match what.as_str() {
        "decode" => decoded(rt.alloc(), &mut frame, rounds),
        "encode" => match decode(rt.alloc(), &frame) {
            Ok(packet) => encoded(&packet, &mut Vec::with_capacity(rt.alloc(), len)?, rounds),
            Err(_) => 0,
        },
        _ => nothing(&mut frame, rounds),
    };
    println!(rt; "{seen}")?;
    Ok(())
}
EOF

# 42 bytes are headers, and the rest is the tail.
for length in 64 1400; do
  decode=$(each decode "$length" $((length - 42)) 3000001)
  encode=$(each encode "$length" "$length" 3000001)
  echo "$length bytes: decode $decode ns, encode $encode ns"
done
