#!/usr/bin/env bash
# Compares a list of connections with the plain model's over random calls: what each call answers, and what the list says after it.
# Not part of the gate. The sources are compiled without a proof, and with checks that make them slow. The words are the folder of the
# model, how many seeds there are, of which the last begins with a list that is all but full, and how many calls each makes.
set -euo pipefail
source "$(dirname "$0")/loops.sh"

make_program ovn_base inet_packet conn_table <<'PROGRAM'
//! Does the calls of its lines on one list of connections, and writes the lines of which the answer is another than the wanted one.
//! A line is a word and numbers, of which five are a tuple, and behind a tab what the call answers.
#![tactic(auto)]

ghost use Rattle.std.specs.Prelude.{IsTrue};
ghost use Rattle.conn_table.specs.Connections.{IsPair};

use conn_table::connection::{CommitFault, Entry, State};
use conn_table::tuple::{Protocol, Tuple};
use conn_table::zone::Zone;
use inet_packet::decode::decode;
use inet_packet::encode::encode;
use ovn_base::address::Ip4;
use std::alloc::Global;
use std::fmt::Write;
use std::io::{self, BufRead, BufReader};

fn protocol(number: u64) -> Option<Protocol> {
    match number {
        0 => Some(Protocol::Tcp),
        1 => Some(Protocol::Udp),
        2 => Some(Protocol::EchoRequest),
        3 => Some(Protocol::EchoReply),
        _ => Some(Protocol::Other(u8::try_from(number.checked_sub(4)?).ok()?)),
    }
}

fn protocol_number(protocol: Protocol) -> u64 {
    match protocol {
        Protocol::Tcp => 0,
        Protocol::Udp => 1,
        Protocol::EchoRequest => 2,
        Protocol::EchoReply => 3,
        Protocol::Other(number) => 4 + u64::from(number),
    }
}

fn tuple(numbers: &[u64]) -> Option<Tuple> {
    let [kind, src, src_port, dst, dst_port] = numbers else {
        return None;
    };
    Some(Tuple {
        protocol: protocol(*kind)?,
        src: Ip4(u32::try_from(*src).ok()?),
        src_port: u16::try_from(*src_port).ok()?,
        dst: Ip4(u32::try_from(*dst).ok()?),
        dst_port: u16::try_from(*dst_port).ok()?,
    })
}

// Whether the two tuples form an entry.
fn is_pair(forward: &Tuple, reply: &Tuple) -> bool
    ensures { IsTrue result → IsPair forward.now reply.now }
{
    match (forward.protocol, reply.protocol) {
        (Protocol::Tcp, Protocol::Tcp) => true,
        (Protocol::Udp, Protocol::Udp) => true,
        (Protocol::EchoRequest, Protocol::EchoReply) => forward.src_port == forward.dst_port
            && reply.src_port == reply.dst_port,
        (Protocol::Other(one), Protocol::Other(other)) => one == other
            && forward.src_port == 0
            && forward.dst_port == 0
            && reply.src_port == 0
            && reply.dst_port == 0,
        _ => false,
    }
}

fn put_tuple(tuple: &Tuple, out: &mut String) -> io::Result<()> {
    let kind = protocol_number(tuple.protocol);
    write!(out, " {kind} {} {}", tuple.src.0, tuple.src_port)?;
    write!(out, " {} {}", tuple.dst.0, tuple.dst_port)?;
    Ok(())
}

fn put_entry(word: &str, entry: &Entry, out: &mut String) -> io::Result<()> {
    write!(out, " {word}")?;
    put_tuple(&entry.forward, out)?;
    put_tuple(&entry.reply, out)?;
    write!(out, " {} {}", u8::from(entry.blocked), entry.used)?;
    Ok(())
}

// What the list says of the tuple, with the entry that it names.
fn put_state(list: &Zone, tuple: Option<&Tuple>, out: &mut String) -> io::Result<()> {
    match list.find(tuple) {
        State::New => out.push_str(" new")?,
        State::Invalid => out.push_str(" invalid")?,
        State::Forward(slot) => put_entry("forward", list.entry(slot), out)?,
        State::Reply(slot) => put_entry("reply", list.entry(slot), out)?,
    }
    Ok(())
}

// Adds an entry of the tuples, if a connection can begin with the first, and says what becomes of it.
fn commit(list: &mut Zone, forward: Tuple, reply: Tuple, now: u64) -> &'static str {
    if !is_pair(&forward, &reply) {
        return "no-pair";
    }
    if !matches!(list.find(Some(&forward)), State::New) {
        return "not-new";
    }
    match list.commit(forward, reply, now) {
        Ok(slot) if slot.forward == forward => "added",
        Ok(_) => "another-slot",
        Err(CommitFault::Clash(held)) if held == reply => "clash",
        Err(CommitFault::Clash(_)) => "another-clash",
        Err(CommitFault::Full) => "full",
        Err(CommitFault::Memory) => "no-memory",
    }
}

fn touch(list: &mut Zone, tuple: &Tuple, now: u64) {
    if let State::Forward(slot) | State::Reply(slot) = list.find(Some(tuple)) {
        list.touch(slot, now);
    }
}

fn block(list: &mut Zone, tuple: &Tuple, on: bool) {
    if let State::Forward(slot) | State::Reply(slot) = list.find(Some(tuple)) {
        list.block(slot, on);
    }
}

// Translates the packet of the frame, if it is one of a connection, and puts its new frame.
fn translate(alloc: Global, list: &Zone, frame: &[u64], out: &mut String) -> io::Result<()> {
    let mut bytes = Vec::new(alloc);
    for number in frame {
        bytes.push(u8::try_from(*number).unwrap_or(0))?;
    }
    let Ok(mut packet) = decode(alloc, &bytes) else {
        out.push_str(" no packet")?;
        return Ok(());
    };
    let tuple = Tuple::of(&packet);
    put_state(list, tuple.as_ref(), out)?;
    let state = list.find(tuple.as_ref());
    if let State::Forward(_) | State::Reply(_) = state {
        list.translate(state, &mut packet);
    }
    bytes.clear();
    if encode(&packet, &mut bytes).is_ok() {
        write!(out, " {bytes:?}")?;
    }
    Ok(())
}

// Does the call of that word with the numbers, and puts its answer.
fn call(
    alloc: Global,
    list: &mut Zone,
    word: &str,
    numbers: &[u64],
    out: &mut String,
) -> io::Result<()> {
    let first = tuple(numbers.get(..5).unwrap_or(&[]));
    let second = tuple(numbers.get(5..10).unwrap_or(&[]));
    let last = numbers.last().copied().unwrap_or(0);
    match (word, first, second) {
        ("find", tuple, _) => put_state(list, tuple.as_ref(), out)?,
        ("free", Some(tuple), _) => write!(out, " {}", list.is_free(&tuple))?,
        ("commit", Some(forward), Some(reply)) => {
            write!(out, " {}", commit(list, forward, reply, last))?
        }
        ("touch", Some(tuple), _) => touch(list, &tuple, last),
        ("block", Some(tuple), _) => block(list, &tuple, last == 1),
        ("clear", _, _) => list.clear(),
        ("expire", _, _) => list.expire(last),
        ("translate", _, _) => translate(alloc, list, numbers, out)?,
        _ => out.push_str(" no call")?,
    }
    Ok(())
}

// Does the call that the line asks for, and gives its answer.
fn done(alloc: Global, list: &mut Zone, asked: &str) -> io::Result<String> {
    let mut words = asked.split_whitespace();
    let word = words.next().unwrap_or("");
    let mut numbers: Vec<u64> = Vec::new(alloc);
    for number in words {
        numbers.push(number.parse::<u64>().unwrap_or(0))?;
    }
    let mut answer = String::new(alloc);
    call(alloc, list, word, numbers.as_slice(), &mut answer)?;
    Ok(answer)
}

fn main(rt: HostRuntime) -> io::Result<()> {
    let alloc = rt.alloc();
    let Ok(mut list) = Zone::new(alloc) else {
        return Ok(());
    };
    let mut lines: u64 = 0;
    let mut differences: u64 = 0;
    for line in BufReader::new(alloc, rt.reader())?.lines(alloc) {
        let line = line?;
        let (asked, wanted) = line.split_once('\t').unwrap_or((line.as_str(), ""));
        let answer = done(alloc, &mut list, asked)?;
        lines = lines.wrapping_add(1);
        if answer.as_str() != wanted {
            differences = differences.wrapping_add(1);
            println!(rt; "line {lines}: {asked}\n  model{wanted}\n  list {answer}")?;
        }
    }
    println!(rt; "{lines} lines, {differences} differences")?;
    Ok(())
}
PROGRAM

model=${1:-$top/../shared/model}
seeds=${2:-10}
calls=${3:-10000}
mkdir "$work/cases"
for ((seed = 1; seed <= seeds; seed++)); do
  full=()
  ((seed < seeds)) || full=(full)
  python3 "$top/bench/connections_differ.py" "$model" "$seed" "$calls" "${full[@]}" >"$work/cases/$seed"
  echo "$(wc -l <"$work/cases/$seed") lines, 0 differences" >"$work/cases/$seed.stdout"
done
cd "$work/crates/timed"
"${RT:-rt}" try --seconds 3600 --cases "$work/cases"
