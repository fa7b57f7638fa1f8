#!/usr/bin/env bash
# Compares edits with the plain model's over random networks: what is wrong with each, or which datapaths and ports come and go by it,
# and now and then all records. Not part of the gate. The sources are compiled without a proof, and with checks that make them slow.
# The words are the folder of the model, how many seeds there are, and how many edits each has at least.
set -euo pipefail
source "$(dirname "$0")/loops.sh"

make_program ovn_base inet_packet match_language match_cubes conn_table flow_table nb_records nb_rules net_model tunnel_keys nb_edits edit_reader serde_json hex <<'PROGRAM'
//! Makes the edits of its lines on records that are empty at first, and writes the lines of which the answer is another than the wanted
//! one. A line is a word, an event and an answer, with tabs between them: `do` makes the edit, `try` only plans it, and `show` asks for
//! all records. Numbers of events count the lines of the first two.
#![tactic(auto)]

use edit_reader::event::Event;
use edit_reader::read::read_event;
use match_language::field::Direction;
use match_language::printer::print;
use nb_edits::edit::{apply, plan};
use nb_edits::plan::{EditFault, EditPlan};
use nb_records::balancer::{BalancerProtocol, LoadBalancer};
use nb_records::change::Op;
use nb_records::records::Records;
use nb_records::router::NatKind;
use nb_records::rule::{Acl, RuleAction, SetEntry};
use nb_records::switch::{PortAddress, PortKind, SwitchPort};
use nb_rules::fault::{Address, Limited, SchemaFault};
use ovn_base::address::{Backend, Cidr, Ip4, Mac};
use ovn_base::list::List;
use ovn_base::name::Name;
use std::alloc::Global;
use std::fmt::Write;
use std::io::{self, BufRead, BufReader};
use tunnel_keys::owner::KeyOwner;

// ---- faults, and who comes and goes

fn put_address(address: Address, out: &mut String) -> io::Result<()> {
    match address {
        Address::Ether(mac) => {
            let [a, b, c, d, e, f] = mac.0;
            write!(out, "{a:02x}:{b:02x}:{c:02x}:{d:02x}:{e:02x}:{f:02x}")?;
        }
        Address::Ip(ip) => {
            let [a, b, c, d] = ip.0.to_be_bytes();
            write!(out, "{a}.{b}.{c}.{d}")?;
        }
    }
    Ok(())
}

fn limit_word(what: Limited) -> &'static str {
    match what {
        Limited::Datapath => "datapath",
        Limited::Port => "port",
        Limited::Acl => "acl",
        Limited::Cubes => "cubes",
    }
}

fn put_fault(fault: SchemaFault, out: &mut String) -> io::Result<()> {
    match fault {
        SchemaFault::DuplicateName(name) => write!(out, "DuplicateName {name}")?,
        SchemaFault::NoSuch(name) => write!(out, "NoSuch {name}")?,
        SchemaFault::BadDirection(name) => write!(out, "BadDirection {name}")?,
        SchemaFault::StillUsed(name) => write!(out, "StillUsed {name}")?,
        SchemaFault::BadAddress(name) => write!(out, "BadAddress {name}")?,
        SchemaFault::BadPeer(name) => write!(out, "BadPeer {name}")?,
        SchemaFault::DuplicateAddress { address, holder } => {
            out.push_str("DuplicateAddress ")?;
            put_address(address, out)?;
            write!(out, " {holder}")?;
        }
        SchemaFault::DuplicatePrefix(name) => write!(out, "DuplicatePrefix {name}")?,
        SchemaFault::NoNetworkForNexthop(name) => write!(out, "NoNetworkForNexthop {name}")?,
        SchemaFault::NatNeedsChassis(name) => write!(out, "NatNeedsChassis {name}")?,
        SchemaFault::TooWide(width) => write!(out, "TooWide {width}")?,
        SchemaFault::Limit(what) => write!(out, "Limit {}", limit_word(what))?,
    }
    Ok(())
}

fn put_owners(sign: &str, owners: &[KeyOwner], out: &mut String) -> io::Result<()> {
    for owner in owners {
        match owner {
            KeyOwner::Datapath { name, birth } => write!(out, " {sign}{name}@{}", birth.0)?,
            KeyOwner::Port {
                datapath,
                name,
                birth,
            } => write!(out, " {sign}{datapath}/{name}@{}", birth.0)?,
        }
    }
    Ok(())
}

// ---- records in words

fn put_given(name: &Option<Name>, out: &mut String) -> io::Result<()> {
    match name {
        Some(name) => write!(out, " {name}")?,
        None => out.push_str(" -")?,
    }
    Ok(())
}

fn put_names(names: &List<Name>, out: &mut String) -> io::Result<()> {
    out.push_str(" ")?;
    for (at, name) in names.iter().enumerate() {
        write!(out, "{}{name}", if at == 0 { "" } else { "," })?;
    }
    Ok(())
}

fn put_prefixes(prefixes: &[Cidr], out: &mut String) -> io::Result<()> {
    for (at, prefix) in prefixes.iter().enumerate() {
        let comma = if at == 0 { "" } else { "," };
        write!(out, "{comma}{}/{}", prefix.addr.0, prefix.len)?;
    }
    Ok(())
}

fn put_set(entries: &List<SetEntry>, out: &mut String) -> io::Result<()> {
    out.push_str(" ")?;
    for (at, entry) in entries.iter().enumerate() {
        let comma = if at == 0 { "" } else { "," };
        match entry {
            SetEntry::Ip(prefix) => write!(out, "{comma}{}/{}", prefix.addr.0, prefix.len)?,
            SetEntry::Ether(mac) => write!(out, "{comma}{}", mac.number())?,
        }
    }
    Ok(())
}

fn put_entry(mac: &Mac, ips: &List<Ip4>, out: &mut String) -> io::Result<()> {
    write!(out, "{}=", mac.number())?;
    for (at, ip) in ips.iter().enumerate() {
        write!(out, "{}{}", if at == 0 { "" } else { "," }, ip.0)?;
    }
    Ok(())
}

fn put_entries(port: &SwitchPort, out: &mut String) -> io::Result<()> {
    out.push_str(" ")?;
    for (at, entry) in port.addresses.iter().enumerate() {
        out.push_str(if at == 0 { "" } else { ";" })?;
        match entry {
            PortAddress::Ether { mac, ips } => put_entry(mac, ips, out)?,
            PortAddress::Unknown => out.push_str("unknown")?,
            PortAddress::Router => out.push_str("router")?,
        }
    }
    out.push_str(" ")?;
    for (at, entry) in port.port_security.iter().enumerate() {
        write!(out, "{}{}=", if at == 0 { "" } else { ";" }, entry.mac.number())?;
        put_prefixes(entry.ips.as_slice(), out)?;
    }
    Ok(())
}

fn put_switch_port(port: &SwitchPort, out: &mut String) -> io::Result<()> {
    write!(out, "|switch_port {} {} {}", port.name, port.birth.0, port.switch)?;
    out.push_str(match port.kind {
        PortKind::Virtual => " 1",
        PortKind::Router => " 0",
    })?;
    put_given(&port.router_port, out)?;
    put_entries(port, out)?;
    write!(out, " {}", u8::from(port.enabled))?;
    Ok(())
}

fn put_rule(alloc: Global, rule: &Acl, out: &mut String) -> io::Result<()> {
    write!(out, "|acl {} {}", rule.name, rule.birth.0)?;
    put_given(&rule.switch, out)?;
    put_given(&rule.port_group, out)?;
    let direction = match rule.direction {
        Direction::FromLport => "from-lport",
        Direction::ToLport => "to-lport",
    };
    write!(out, " {direction} {} ", rule.priority)?;
    let mut text: Vec<u8> = Vec::new(alloc);
    if print(&rule.matching, &mut text).is_ok() {
        out.push_str(str::from_utf8(&text).unwrap_or("?"))?;
    }
    out.push_str(match rule.action {
        RuleAction::Allow => " allow",
        RuleAction::AllowRelated => " allow-related",
        RuleAction::AllowStateless => " allow-stateless",
        RuleAction::Drop => " drop",
        RuleAction::Reject => " reject",
    })?;
    Ok(())
}

fn put_backends(backends: &List<Backend>, out: &mut String) -> io::Result<()> {
    for (at, backend) in backends.iter().enumerate() {
        let comma = if at == 0 { "" } else { "," };
        write!(out, "{comma}{}:{}", backend.ip.0, backend.port)?;
    }
    Ok(())
}

fn put_balancer(balancer: &LoadBalancer, out: &mut String) -> io::Result<()> {
    let protocol = match balancer.protocol {
        BalancerProtocol::Tcp => "tcp",
        BalancerProtocol::Udp => "udp",
    };
    write!(out, "|load_balancer {} {} {protocol} ", balancer.name, balancer.birth.0)?;
    for (at, vip) in balancer.vips.iter().enumerate() {
        let mark = if at == 0 { "" } else { ";" };
        write!(out, "{mark}{}:{}=", vip.at.ip.0, vip.at.port)?;
        put_backends(&vip.backends, out)?;
    }
    put_names(&balancer.switches, out)?;
    put_names(&balancer.routers, out)
}

fn nat_word(kind: NatKind) -> &'static str {
    match kind {
        NatKind::Snat => "snat",
        NatKind::Dnat => "dnat",
        NatKind::DnatAndSnat => "dnat_and_snat",
    }
}

fn put_routing(records: &Records, out: &mut String) -> io::Result<()> {
    for (_name, row) in records.routes() {
        write!(out, "|route {} {} {} ", row.name, row.birth.0, row.router)?;
        put_prefixes(&[row.prefix], out)?;
        write!(out, " {}", row.nexthop.0)?;
    }
    for (_name, row) in records.nats() {
        write!(out, "|nat {} {} {} {}", row.name, row.birth.0, row.router, nat_word(row.kind))?;
        write!(out, " {} ", row.external_ip.0)?;
        put_prefixes(&[row.logical_ip], out)?;
    }
    Ok(())
}

fn put_datapaths(records: &Records, out: &mut String) -> io::Result<()> {
    for (_name, row) in records.switches() {
        write!(out, "|switch {} {}", row.name, row.birth.0)?;
    }
    for (_name, row) in records.routers() {
        write!(out, "|router {} {}", row.name, row.birth.0)?;
        put_given(&row.chassis, out)?;
    }
    for (_name, row) in records.router_ports() {
        write!(out, "|router_port {} {} {}", row.name, row.birth.0, row.router)?;
        write!(out, " {} ", row.mac.number())?;
        put_prefixes(row.networks.as_slice(), out)?;
        put_given(&row.peer, out)?;
    }
    for (_name, row) in records.switch_ports() {
        put_switch_port(row, out)?;
    }
    Ok(())
}

fn put_rules(alloc: Global, records: &Records, out: &mut String) -> io::Result<()> {
    for (_name, row) in records.address_sets() {
        write!(out, "|address_set {} {}", row.name, row.birth.0)?;
        put_set(&row.addresses, out)?;
    }
    for (_name, row) in records.port_groups() {
        write!(out, "|port_group {} {}", row.name, row.birth.0)?;
        put_names(&row.ports, out)?;
    }
    for (_name, row) in records.acls() {
        put_rule(alloc, row, out)?;
    }
    Ok(())
}

fn put_records(alloc: Global, records: &Records, out: &mut String) -> io::Result<()> {
    put_datapaths(records, out)?;
    put_rules(alloc, records, out)?;
    put_routing(records, out)?;
    for (_name, row) in records.load_balancers() {
        put_balancer(row, out)?;
    }
    for (_name, row) in records.static_macs() {
        write!(out, "|static_mac {} {} {}", row.name, row.birth.0, row.port)?;
        write!(out, " {} {}", row.ip.0, row.mac.number())?;
    }
    for mark in records.offline() {
        write!(out, "|offline {} {}:{}", mark.balancer, mark.backend.ip.0, mark.backend.port)?;
    }
    Ok(())
}

// ---- lines

// The operations that the event asks for.
fn operations(alloc: Global, text: &str) -> io::Result<Option<List<Op>>> {
    match read_event(alloc, text.as_bytes()) {
        Ok(Event::Edit(ops)) => Ok(Some(ops)),
        Ok(Event::Health {
            balancer,
            backend,
            online,
        }) => {
            let mut vec = Vec::new(alloc);
            vec.push(Op::Health {
                balancer,
                backend,
                online,
            })?;
            Ok(Some(List::from_vec(vec)))
        }
        _ => Ok(None),
    }
}

fn put_plan(plan: &EditPlan, out: &mut String) -> io::Result<()> {
    out.push_str("ok")?;
    put_owners("+", plan.added(), out)?;
    put_owners("-", plan.removed(), out)
}

// Plans the edit, makes it if it is to be made, and puts the answer.
fn edit(
    alloc: Global,
    records: &mut Records,
    ops: &[Op],
    number: u64,
    is_made: bool,
    out: &mut String,
) -> io::Result<()> {
    match plan(alloc, records, ops, number) {
        Ok(plan) => {
            put_plan(&plan, out)?;
            if is_made {
                apply(records, plan);
            }
        }
        Err(EditFault::Schema(fault)) => put_fault(fault, out)?,
        Err(EditFault::Memory) => out.push_str("no memory")?,
    }
    Ok(())
}

fn main(rt: HostRuntime) -> io::Result<()> {
    let alloc = rt.alloc();
    let Ok(mut records) = Records::new(alloc) else {
        return Ok(());
    };
    let mut lines: u64 = 0;
    let mut number: u64 = 0;
    let mut differences: u64 = 0;
    for line in BufReader::new(alloc, rt.reader())?.lines(alloc) {
        let line = line?;
        let (word, rest) = line.split_once('\t').unwrap_or((line.as_str(), ""));
        let (asked, wanted) = rest.split_once('\t').unwrap_or((rest, ""));
        let mut answer = String::new(alloc);
        if word == "show" {
            put_records(alloc, &records, &mut answer)?;
        } else {
            number = number.wrapping_add(1);
            match operations(alloc, asked)? {
                Some(ops) => {
                    edit(alloc, &mut records, ops.as_slice(), number, word == "do", &mut answer)?
                }
                None => answer.push_str("unread")?,
            }
        }
        lines = lines.wrapping_add(1);
        if answer.as_str() != wanted {
            differences = differences.wrapping_add(1);
            println!(rt; "line {lines}: {word} {asked}\n  model {wanted}\n  crate {answer}")?;
        }
    }
    println!(rt; "{lines} lines, {differences} differences")?;
    Ok(())
}
PROGRAM

model=${1:-$top/../shared/model}
seeds=${2:-16}
edits=${3:-250}
mkdir "$work/cases"
for ((seed = 1; seed <= seeds; seed++)); do
  python3 "$top/bench/edits_differ.py" "$model" "$seed" "$edits" >"$work/cases/$seed"
  echo "$(wc -l <"$work/cases/$seed") lines, 0 differences" >"$work/cases/$seed.stdout"
done
cd "$work/crates/timed"
"${RT:-rt}" try --seconds 3600 --cases "$work/cases"
