#!/usr/bin/env bash
# Compares the reader of events with the plain model's, line by line: the fault with its field or place, or what the line asks for.
# Not part of the gate. The sources are compiled without a proof, and with checks that make them slow. The words are the folder of the
# model, how many seeds there are, and how many lines each has.
set -euo pipefail
source "$(dirname "$0")/loops.sh"

make_program ovn_base match_language nb_records edit_reader <<'PROGRAM'
//! Reads the lines of its lines, and writes those of which the answer is another than the wanted one. A line is the bytes of a line in
//! hexadecimal digits, and behind a tab what reading gives.
#![tactic(auto)]

use edit_reader::event::{Event, ReadError, ReadRefusal};
use edit_reader::read::read_event;
use match_language::expr::Expr;
use match_language::fault::MatchFault;
use match_language::field::Direction;
use match_language::printer::print;
use nb_records::balancer::{BalancerProtocol, LoadBalancer, Vip};
use nb_records::change::{Change, Op};
use nb_records::kinds::Kind;
use nb_records::record::Record;
use nb_records::router::{Nat, NatKind, Route, Router, RouterPort, StaticMac};
use nb_records::rule::{Acl, RuleAction, SetEntry};
use nb_records::switch::{PortAddress, PortKind, SecurityEntry, SwitchPort};
use ovn_base::address::{Backend, Cidr, Ip4, Mac};
use ovn_base::list::List;
use ovn_base::memory::NoMemory;
use ovn_base::name::Name;
use ovn_base::number::{hexadecimal_digit, push_number};
use ovn_base::print_address::{push_cidr, push_ip4, push_mac};
use std::alloc::Global;
use std::io::{self, BufRead, BufReader};

// A value as a text.
trait Put {
    fn put(&self, out: &mut Vec<u8>) -> Result<(), NoMemory>;
}

fn push_text(out: &mut Vec<u8>, text: &str) -> Result<(), NoMemory> {
    out.extend_from_slice(text.as_bytes())?;
    Ok(())
}

fn push_hex(out: &mut Vec<u8>, byte: u8) -> Result<(), NoMemory> {
    let digits = b"0123456789abcdef";
    out.push(digits[usize::from(byte >> 4)])?;
    out.push(digits[usize::from(byte & 15)])?;
    Ok(())
}

// A field, in front of which stands a space.
fn field<T: Put>(out: &mut Vec<u8>, name: &str, value: &T) -> Result<(), NoMemory> {
    push_text(out, " ")?;
    push_text(out, name)?;
    push_text(out, "=")?;
    value.put(out)
}

impl<T: Put> Put for Option<T> {
    fn put(&self, out: &mut Vec<u8>) -> Result<(), NoMemory> {
        match self {
            Some(value) => value.put(out),
            None => push_text(out, "-"),
        }
    }
}

impl<T: Put> Put for List<T> {
    fn put(&self, out: &mut Vec<u8>) -> Result<(), NoMemory> {
        push_text(out, "[")?;
        let mut is_first = true;
        for item in self.iter() {
            if !is_first {
                push_text(out, ",")?;
            }
            is_first = false;
            item.put(out)?;
        }
        push_text(out, "]")
    }
}

impl Put for Name {
    fn put(&self, out: &mut Vec<u8>) -> Result<(), NoMemory> {
        out.extend_from_slice(self.text())?;
        Ok(())
    }
}

impl Put for Mac {
    fn put(&self, out: &mut Vec<u8>) -> Result<(), NoMemory> {
        push_mac(out, *self)
    }
}

impl Put for Ip4 {
    fn put(&self, out: &mut Vec<u8>) -> Result<(), NoMemory> {
        push_ip4(out, *self)
    }
}

impl Put for Cidr {
    fn put(&self, out: &mut Vec<u8>) -> Result<(), NoMemory> {
        push_cidr(out, *self)
    }
}

impl Put for Backend {
    fn put(&self, out: &mut Vec<u8>) -> Result<(), NoMemory> {
        push_ip4(out, self.ip)?;
        push_text(out, ":")?;
        push_number(out, u64::from(self.port))
    }
}

impl Put for bool {
    fn put(&self, out: &mut Vec<u8>) -> Result<(), NoMemory> {
        push_text(out, if *self { "true" } else { "false" })
    }
}

impl Put for u16 {
    fn put(&self, out: &mut Vec<u8>) -> Result<(), NoMemory> {
        push_number(out, u64::from(*self))
    }
}

impl Put for u64 {
    fn put(&self, out: &mut Vec<u8>) -> Result<(), NoMemory> {
        push_number(out, *self)
    }
}

impl Put for Expr {
    fn put(&self, out: &mut Vec<u8>) -> Result<(), NoMemory> {
        print(self, out)
    }
}

impl Put for PortAddress {
    fn put(&self, out: &mut Vec<u8>) -> Result<(), NoMemory> {
        match self {
            PortAddress::Ether { mac, ips } => {
                mac.put(out)?;
                ips.put(out)
            }
            PortAddress::Unknown => push_text(out, "unknown"),
            PortAddress::Router => push_text(out, "router"),
        }
    }
}

impl Put for SecurityEntry {
    fn put(&self, out: &mut Vec<u8>) -> Result<(), NoMemory> {
        self.mac.put(out)?;
        self.ips.put(out)
    }
}

impl Put for SetEntry {
    fn put(&self, out: &mut Vec<u8>) -> Result<(), NoMemory> {
        match self {
            SetEntry::Ip(prefix) => prefix.put(out),
            SetEntry::Ether(mac) => mac.put(out),
        }
    }
}

impl Put for Vip {
    fn put(&self, out: &mut Vec<u8>) -> Result<(), NoMemory> {
        self.at.put(out)?;
        self.backends.put(out)
    }
}

impl Put for PortKind {
    fn put(&self, out: &mut Vec<u8>) -> Result<(), NoMemory> {
        let text = match self {
            PortKind::Virtual => "",
            PortKind::Router => "router",
        };
        push_text(out, text)
    }
}

impl Put for NatKind {
    fn put(&self, out: &mut Vec<u8>) -> Result<(), NoMemory> {
        let text = match self {
            NatKind::Snat => "snat",
            NatKind::Dnat => "dnat",
            NatKind::DnatAndSnat => "dnat_and_snat",
        };
        push_text(out, text)
    }
}

impl Put for Direction {
    fn put(&self, out: &mut Vec<u8>) -> Result<(), NoMemory> {
        let text = match self {
            Direction::FromLport => "from-lport",
            Direction::ToLport => "to-lport",
        };
        push_text(out, text)
    }
}

impl Put for RuleAction {
    fn put(&self, out: &mut Vec<u8>) -> Result<(), NoMemory> {
        let text = match self {
            RuleAction::Allow => "allow",
            RuleAction::AllowRelated => "allow-related",
            RuleAction::AllowStateless => "allow-stateless",
            RuleAction::Drop => "drop",
            RuleAction::Reject => "reject",
        };
        push_text(out, text)
    }
}

impl Put for BalancerProtocol {
    fn put(&self, out: &mut Vec<u8>) -> Result<(), NoMemory> {
        let text = match self {
            BalancerProtocol::Tcp => "tcp",
            BalancerProtocol::Udp => "udp",
        };
        push_text(out, text)
    }
}

impl Put for Kind {
    fn put(&self, out: &mut Vec<u8>) -> Result<(), NoMemory> {
        let text = match self {
            Kind::Switch => "switch",
            Kind::Router => "router",
            Kind::RouterPort => "router_port",
            Kind::SwitchPort => "switch_port",
            Kind::AddressSet => "address_set",
            Kind::PortGroup => "port_group",
            Kind::Acl => "acl",
            Kind::Route => "route",
            Kind::Nat => "nat",
            Kind::LoadBalancer => "load_balancer",
            Kind::StaticMac => "static_mac",
        };
        push_text(out, text)
    }
}

impl Put for Router {
    fn put(&self, out: &mut Vec<u8>) -> Result<(), NoMemory> {
        field(out, "chassis", &self.chassis)
    }
}

impl Put for RouterPort {
    fn put(&self, out: &mut Vec<u8>) -> Result<(), NoMemory> {
        field(out, "router", &self.router)?;
        field(out, "mac", &self.mac)?;
        field(out, "networks", &self.networks)?;
        field(out, "peer", &self.peer)
    }
}

impl Put for SwitchPort {
    fn put(&self, out: &mut Vec<u8>) -> Result<(), NoMemory> {
        field(out, "switch", &self.switch)?;
        field(out, "type", &self.kind)?;
        field(out, "router_port", &self.router_port)?;
        field(out, "addresses", &self.addresses)?;
        field(out, "port_security", &self.port_security)?;
        field(out, "enabled", &self.enabled)
    }
}

impl Put for Acl {
    fn put(&self, out: &mut Vec<u8>) -> Result<(), NoMemory> {
        field(out, "switch", &self.switch)?;
        field(out, "port_group", &self.port_group)?;
        field(out, "direction", &self.direction)?;
        field(out, "priority", &self.priority)?;
        field(out, "match", &self.matching)?;
        field(out, "action", &self.action)
    }
}

impl Put for Route {
    fn put(&self, out: &mut Vec<u8>) -> Result<(), NoMemory> {
        field(out, "router", &self.router)?;
        field(out, "prefix", &self.prefix)?;
        field(out, "nexthop", &self.nexthop)
    }
}

impl Put for Nat {
    fn put(&self, out: &mut Vec<u8>) -> Result<(), NoMemory> {
        field(out, "router", &self.router)?;
        field(out, "type", &self.kind)?;
        field(out, "external_ip", &self.external_ip)?;
        field(out, "logical_ip", &self.logical_ip)
    }
}

impl Put for LoadBalancer {
    fn put(&self, out: &mut Vec<u8>) -> Result<(), NoMemory> {
        field(out, "protocol", &self.protocol)?;
        field(out, "vips", &self.vips)?;
        field(out, "switches", &self.switches)?;
        field(out, "routers", &self.routers)
    }
}

impl Put for StaticMac {
    fn put(&self, out: &mut Vec<u8>) -> Result<(), NoMemory> {
        field(out, "port", &self.port)?;
        field(out, "ip", &self.ip)?;
        field(out, "mac", &self.mac)
    }
}

fn head(out: &mut Vec<u8>, verb: &str, kind: Kind, name: &Name) -> Result<(), NoMemory> {
    push_text(out, verb)?;
    push_text(out, " ")?;
    kind.put(out)?;
    push_text(out, " ")?;
    name.put(out)
}

fn added<T: Put>(out: &mut Vec<u8>, kind: Kind, name: &Name, row: &T) -> Result<(), NoMemory> {
    head(out, "add", kind, name)?;
    row.put(out)
}

impl Put for Record {
    fn put(&self, out: &mut Vec<u8>) -> Result<(), NoMemory> {
        match self {
            Record::Switch(row) => head(out, "add", Kind::Switch, &row.name),
            Record::Router(row) => added(out, Kind::Router, &row.name, row),
            Record::RouterPort(row) => added(out, Kind::RouterPort, &row.name, row),
            Record::SwitchPort(row) => added(out, Kind::SwitchPort, &row.name, row),
            Record::AddressSet(row) => {
                head(out, "add", Kind::AddressSet, &row.name)?;
                field(out, "addresses", &row.addresses)
            }
            Record::PortGroup(row) => {
                head(out, "add", Kind::PortGroup, &row.name)?;
                field(out, "ports", &row.ports)
            }
            Record::Acl(row) => added(out, Kind::Acl, &row.name, row),
            Record::Route(row) => added(out, Kind::Route, &row.name, row),
            Record::Nat(row) => added(out, Kind::Nat, &row.name, row),
            Record::LoadBalancer(row) => added(out, Kind::LoadBalancer, &row.name, row),
            Record::StaticMac(row) => added(out, Kind::StaticMac, &row.name, row),
        }
    }
}

impl Put for Change {
    fn put(&self, out: &mut Vec<u8>) -> Result<(), NoMemory> {
        match self {
            Change::Switch | Change::Router => Ok(()),
            Change::RouterPort {
                mac,
                networks,
                peer,
            } => {
                field(out, "mac", mac)?;
                field(out, "networks", networks)?;
                field(out, "peer", peer)
            }
            Change::SwitchPort {
                addresses,
                port_security,
                enabled,
            } => {
                field(out, "addresses", addresses)?;
                field(out, "port_security", port_security)?;
                field(out, "enabled", enabled)
            }
            Change::AddressSet { addresses } => field(out, "addresses", addresses),
            Change::PortGroup { ports } => field(out, "ports", ports),
            Change::Acl {
                priority,
                matching,
                action,
            } => {
                field(out, "priority", priority)?;
                field(out, "match", matching)?;
                field(out, "action", action)
            }
            Change::Route { prefix, nexthop } => {
                field(out, "prefix", prefix)?;
                field(out, "nexthop", nexthop)
            }
            Change::Nat {
                external_ip,
                logical_ip,
            } => {
                field(out, "external_ip", external_ip)?;
                field(out, "logical_ip", logical_ip)
            }
            Change::LoadBalancer {
                vips,
                switches,
                routers,
            } => {
                field(out, "vips", vips)?;
                field(out, "switches", switches)?;
                field(out, "routers", routers)
            }
            Change::StaticMac { ip, mac } => {
                field(out, "ip", ip)?;
                field(out, "mac", mac)
            }
        }
    }
}

fn kind_of(change: &Change) -> Kind {
    match change {
        Change::Switch => Kind::Switch,
        Change::Router => Kind::Router,
        Change::RouterPort { .. } => Kind::RouterPort,
        Change::SwitchPort { .. } => Kind::SwitchPort,
        Change::AddressSet { .. } => Kind::AddressSet,
        Change::PortGroup { .. } => Kind::PortGroup,
        Change::Acl { .. } => Kind::Acl,
        Change::Route { .. } => Kind::Route,
        Change::Nat { .. } => Kind::Nat,
        Change::LoadBalancer { .. } => Kind::LoadBalancer,
        Change::StaticMac { .. } => Kind::StaticMac,
    }
}

impl Put for Op {
    fn put(&self, out: &mut Vec<u8>) -> Result<(), NoMemory> {
        push_text(out, " ")?;
        match self {
            Op::Add(row) => row.put(out),
            Op::Set { kind, name, change } => {
                if *kind != kind_of(change) {
                    push_text(out, "of another kind ")?;
                }
                head(out, "set", *kind, name)?;
                change.put(out)
            }
            Op::Remove { kind, name } => head(out, "remove", *kind, name),
            Op::Health { .. } => push_text(out, "health"),
        }
    }
}

fn push_frame(out: &mut Vec<u8>, word: &str, port: &Name, frame: &[u8]) -> Result<(), NoMemory> {
    push_text(out, word)?;
    field(out, "port", port)?;
    push_text(out, " frame=")?;
    for byte in frame {
        push_hex(out, *byte)?;
    }
    Ok(())
}

fn push_numbered(out: &mut Vec<u8>, word: &str, number: u64) -> Result<(), NoMemory> {
    push_text(out, word)?;
    field(out, "frame", &number)
}

impl Put for Event {
    fn put(&self, out: &mut Vec<u8>) -> Result<(), NoMemory> {
        match self {
            Event::Edit(ops) => {
                push_text(out, "edit")?;
                ops.put(out)
            }
            Event::Bind { port, chassis } => {
                push_text(out, "bind")?;
                field(out, "port", port)?;
                field(out, "chassis", chassis)
            }
            Event::Unbind { port } => {
                push_text(out, "unbind")?;
                field(out, "port", port)
            }
            Event::AddChassis(name) => {
                push_text(out, "chassis-add")?;
                field(out, "chassis", name)
            }
            Event::RemoveChassis(name) => {
                push_text(out, "chassis-remove")?;
                field(out, "chassis", name)
            }
            Event::Keys { datapaths, ports } => {
                push_text(out, "keys")?;
                field(out, "datapaths", &u64::from(*datapaths))?;
                field(out, "ports", ports)
            }
            Event::Health {
                balancer,
                backend,
                online,
            } => {
                push_text(out, "health")?;
                field(out, "balancer", balancer)?;
                field(out, "backend", backend)?;
                field(out, "online", online)
            }
            Event::Clock { seconds } => {
                push_text(out, "clock")?;
                field(out, "seconds", seconds)
            }
            Event::Inject { port, frame } => push_frame(out, "inject", port, frame.as_slice()),
            Event::Deliver { frame } => push_numbered(out, "deliver", *frame),
            Event::Lose { frame } => push_numbered(out, "lose", *frame),
            Event::Repeat { frame } => push_numbered(out, "repeat", *frame),
            Event::Drain => push_text(out, "drain"),
            Event::Packet { port, frame } => push_frame(out, "packet", port, frame.as_slice()),
            Event::Unread(_) => push_text(out, "unread"),
        }
    }
}

// A name of a field, with each byte that no name has in hexadecimal digits.
fn push_named(out: &mut Vec<u8>, word: &str, name: &[u8]) -> Result<(), NoMemory> {
    push_text(out, word)?;
    push_text(out, " ")?;
    for byte in name {
        if byte.is_ascii_alphanumeric() || b"_.:-".contains(byte) {
            out.push(*byte)?;
        } else {
            push_text(out, "%")?;
            push_hex(out, *byte)?;
        }
    }
    Ok(())
}

fn push_placed(out: &mut Vec<u8>, word: &str, place: usize) -> Result<(), NoMemory> {
    push_text(out, "BadMatch ")?;
    push_text(out, word)?;
    push_text(out, " ")?;
    push_number(out, place as u64)
}

impl Put for ReadRefusal {
    fn put(&self, out: &mut Vec<u8>) -> Result<(), NoMemory> {
        match self {
            ReadRefusal::TooLong => push_text(out, "TooLong"),
            ReadRefusal::BadJson => push_text(out, "BadJson"),
            ReadRefusal::NotObject => push_text(out, "NotObject"),
            ReadRefusal::UnknownEvent => push_text(out, "UnknownEvent"),
            ReadRefusal::UnknownField(name) => push_named(out, "UnknownField", name.as_slice()),
            ReadRefusal::MissingField(name) => push_named(out, "MissingField", name.as_slice()),
            ReadRefusal::WrongKind(name) => push_named(out, "WrongKind", name.as_slice()),
            ReadRefusal::OutOfRange(name) => push_named(out, "OutOfRange", name.as_slice()),
            ReadRefusal::BadMatch(MatchFault::Token(at)) => push_placed(out, "Token", *at),
            ReadRefusal::BadMatch(MatchFault::Syntax(at)) => push_placed(out, "Syntax", *at),
            ReadRefusal::BadMatch(MatchFault::UnknownField(at)) => {
                push_placed(out, "UnknownField", *at)
            }
            ReadRefusal::BadMatch(MatchFault::BadConstant(at)) => {
                push_placed(out, "BadConstant", *at)
            }
            ReadRefusal::BadMatch(MatchFault::MixedAndOr(at)) => {
                push_placed(out, "MixedAndOr", *at)
            }
            ReadRefusal::BadMatch(MatchFault::TooDeep(at)) => push_placed(out, "TooDeep", *at),
        }
    }
}

// What reading the line gives.
fn answer(alloc: Global, line: &[u8], out: &mut Vec<u8>) -> Result<(), NoMemory> {
    match read_event(alloc, line) {
        Ok(event) => event.put(out),
        Err(ReadError::Refused(fault)) => fault.put(out),
        Err(ReadError::Memory) => push_text(out, "no memory"),
    }
}

fn bytes_of(alloc: Global, digits: &[u8]) -> Result<Vec<u8>, NoMemory> {
    let mut bytes = Vec::new(alloc);
    for pair in digits.chunks(2) {
        if let [high, low] = pair {
            let high = hexadecimal_digit(*high).unwrap_or(0);
            let low = hexadecimal_digit(*low).unwrap_or(0);
            bytes.push(high << 4 | low)?;
        }
    }
    Ok(bytes)
}

// What is read, with `\n` for a feed, which would end the line of the answer.
fn compare(alloc: Global, asked: &str, out: &mut Vec<u8>) -> Result<(), NoMemory> {
    let line = bytes_of(alloc, asked.as_bytes())?;
    let mut said = Vec::new(alloc);
    answer(alloc, &line, &mut said)?;
    for byte in said.as_slice() {
        match *byte {
            b'\n' => push_text(out, "\\n")?,
            byte => out.push(byte)?,
        }
    }
    Ok(())
}

fn main(rt: HostRuntime) -> io::Result<()> {
    let alloc = rt.alloc();
    let mut lines: u64 = 0;
    let mut differences: u64 = 0;
    for line in BufReader::new(alloc, rt.reader())?.lines(alloc) {
        let line = line?;
        let (asked, wanted) = line.split_once('\t').unwrap_or((line.as_str(), ""));
        let mut out = Vec::new(alloc);
        let ended = compare(alloc, asked, &mut out);
        lines = lines.wrapping_add(1);
        if ended.is_err() || out.as_slice() != wanted.as_bytes() {
            differences = differences.wrapping_add(1);
            let said = String::from_utf8_lossy(alloc, &out)?;
            println!(rt; "line {lines}: {asked}\n  model  {wanted}\n  reader {said}")?;
        }
    }
    println!(rt; "{lines} lines, {differences} differences")?;
    Ok(())
}
PROGRAM

model=${1:-$top/../shared/model}
seeds=${2:-10}
lines=${3:-6000}
mkdir "$work/cases"
for ((seed = 1; seed <= seeds; seed++)); do
  python3 "$top/bench/reading_differ.py" "$model" "$seed" "$lines" >"$work/cases/$seed"
  echo "$(wc -l <"$work/cases/$seed") lines, 0 differences" >"$work/cases/$seed.stdout"
done
cd "$work/crates/timed"
"${RT:-rt}" try --seconds 3600 --cases "$work/cases"
