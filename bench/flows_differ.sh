#!/usr/bin/env bash
# Compares the rows to which units are compiled with those of a compiler in Python, over random networks. Not part of the gate. The sources are compiled without a proof, and with checks that make them slow. The words are the folder of the model, how many
# seeds there are, how many edits each has, and the first seed.
set -euo pipefail
source "$(dirname "$0")/loops.sh"

make_program ovn_base inet_packet match_language match_cubes conn_table flow_table nb_records nb_rules net_model tunnel_keys nb_edits edit_reader \
  logical_flows stage_rows acl_stages switch_stages router_stages nat_stages lb_stages serde_json hex <<'PROGRAM'
//! Makes the edits of its lines on records that are empty at first, and writes in what the rows of datapaths differ from the wanted ones.
//! A line is a word and what belongs to it, with tabs between them: `do` has an edit, `mark` the health of a backend, and `flows` all rows
//! that are wanted. A row is the name of a unit and a logical flow of one datapath; those of a unit are compared as a set.
#![tactic(auto)]

use acl_stages::rule_unit::RuleUnit;
use edit_reader::event::Event;
use edit_reader::read::read_event;
use lb_stages::balancer_unit::BalancerUnit;
use logical_flows::print_flow::print_flow;
use logical_flows::stage_unit::StageUnit;
use nat_stages::nat_unit::NatUnit;
use nb_edits::edit::{apply, plan};
use nb_records::addresses::ips_in_entry;
use nb_records::balancer::LoadBalancer;
use nb_records::records::Records;
use nb_records::references::serves;
use nb_records::rule::Acl;
use net_model::neighbours::neighbour;
use ovn_base::address::Ip4;
use ovn_base::list::List;
use ovn_base::memory::NoMemory;
use ovn_base::name::Name;
use ovn_base::print_address::push_ip4;
use ovn_base::steps::Steps;
use router_stages::neighbour_unit::NeighbourUnit;
use router_stages::port_unit::RouterPortUnit;
use router_stages::route_unit::RouteUnit;
use router_stages::router_unit::RouterUnit;
use stage_rows::answered::answered_ips;
use std::alloc::Global;
use std::collections::BTreeSet;
use std::io::{self, BufRead, BufReader};
use switch_stages::port_unit::PortUnit;
use switch_stages::switch_unit::SwitchUnit;

// Names the counter of units.
struct Units;

// Makes the edit, and says whether it could be made.
fn edit(alloc: Global, records: &mut Records, text: &str, number: u64) -> bool {
    let Ok(Event::Edit(ops)) = read_event(alloc, text.as_bytes()) else {
        return false;
    };
    match plan(alloc, records, ops.as_slice(), number) {
        Ok(plan) => {
            apply(records, plan);
            true
        }
        Err(_) => false,
    }
}

// Marks the backend, and says whether it could be marked.
fn mark(alloc: Global, records: &mut Records, text: &str) -> bool {
    match read_event(alloc, text.as_bytes()) {
        Ok(Event::Health {
            balancer,
            backend,
            online,
        }) => records.mark(&balancer, backend, online).is_ok(),
        _ => false,
    }
}

// ---- rows

// Puts the rows of the unit, each behind the unit's name: a word, and the name of a record.
fn put_unit<U: StageUnit<Facts = Records>>(
    alloc: Global,
    records: &Records,
    unit: &U,
    word: &[u8],
    name: &[u8],
    datapath: Name,
    rows: &mut BTreeSet<Vec<u8>>,
) -> Result<(), NoMemory> {
    let mut flows = List::new(alloc);
    let mut steps: Steps<Units> = Steps::new();
    unit.translate(alloc, records, &mut flows, &mut steps)?;
    for flow in flows.iter() {
        let mut row: Vec<u8> = Vec::new(alloc);
        row.extend_from_slice(word)?;
        row.extend_from_slice(name)?;
        row.extend_from_slice(b": ")?;
        print_flow(flow, &[datapath], &mut row)?;
        rows.insert(row)?;
    }
    Ok(())
}

// The rule is one of the switch, or of a group with a port of it.
fn applies(records: &Records, rule: &Acl, switch: Name) -> bool {
    if rule.switch == Some(switch) {
        return true;
    }
    let Some(group) = rule.port_group.and_then(|name| records.port_group(&name)) else {
        return false;
    };
    for name in group.ports.iter() {
        if let Some(port) = records.switch_port(name) {
            if port.switch == switch {
                return true;
            }
        }
    }
    false
}

fn put_rules(
    alloc: Global,
    records: &Records,
    switch: Name,
    rows: &mut BTreeSet<Vec<u8>>,
) -> Result<(), NoMemory> {
    for (_name, rule) in records.acls() {
        if applies(records, rule, switch) {
            let unit = RuleUnit {
                rule: rule.name,
                switch,
            };
            put_unit(alloc, records, &unit, b"rule ", rule.name.text(), switch, rows)?;
        }
    }
    Ok(())
}

fn put_switches(
    alloc: Global,
    records: &Records,
    rows: &mut BTreeSet<Vec<u8>>,
) -> Result<(), NoMemory> {
    for (name, port) in records.switch_ports() {
        let unit = PortUnit { port: port.name };
        put_unit(alloc, records, &unit, b"port ", name.text(), port.switch, rows)?;
    }
    for (name, switch) in records.switches() {
        let unit = SwitchUnit {
            switch: switch.name,
        };
        put_unit(alloc, records, &unit, b"switch ", name.text(), switch.name, rows)?;
        put_rules(alloc, records, switch.name, rows)?;
    }
    Ok(())
}

// The addresses that a record could make a neighbour.
fn known_ips(alloc: Global, records: &Records) -> Result<BTreeSet<Ip4>, NoMemory> {
    let mut ips = BTreeSet::new(alloc);
    for (_name, binding) in records.static_macs() {
        ips.insert(binding.ip)?;
    }
    for (_name, port) in records.switch_ports() {
        for entry in port.addresses.iter() {
            for ip in ips_in_entry(entry) {
                ips.insert(*ip)?;
            }
        }
    }
    for (_name, port) in records.router_ports() {
        let answered = answered_ips(alloc, records, port)?;
        for ip in answered.iter() {
            ips.insert(*ip)?;
        }
    }
    Ok(ips)
}

// The words of a neighbour's unit behind the first.
fn pair_text(alloc: Global, port: &Name, ip: Ip4) -> Result<Vec<u8>, NoMemory> {
    let mut text = Vec::new(alloc);
    text.extend_from_slice(port.text())?;
    text.push(b' ')?;
    push_ip4(&mut text, ip)?;
    Ok(text)
}

// Puts the rows of the balancer on the switch or router, if it serves it.
fn put_balancer(
    alloc: Global,
    records: &Records,
    balancer: &LoadBalancer,
    datapath: Name,
    rows: &mut BTreeSet<Vec<u8>>,
) -> Result<(), NoMemory> {
    if !serves(balancer, &datapath) {
        return Ok(());
    }
    let unit = BalancerUnit {
        balancer: balancer.name,
        datapath,
    };
    let mut text: Vec<u8> = Vec::new(alloc);
    text.extend_from_slice(balancer.name.text())?;
    text.push(b' ')?;
    text.extend_from_slice(datapath.text())?;
    put_unit(alloc, records, &unit, b"balancer ", text.as_slice(), datapath, rows)
}

// Puts the rows of NAT and of balancers.
fn put_translating(
    alloc: Global,
    records: &Records,
    rows: &mut BTreeSet<Vec<u8>>,
) -> Result<(), NoMemory> {
    for (name, nat) in records.nats() {
        let unit = NatUnit { nat: nat.name };
        put_unit(alloc, records, &unit, b"nat ", name.text(), nat.router, rows)?;
    }
    for (_name, balancer) in records.load_balancers() {
        for (_switch, switch) in records.switches() {
            put_balancer(alloc, records, balancer, switch.name, rows)?;
        }
        for (_router, router) in records.routers() {
            put_balancer(alloc, records, balancer, router.name, rows)?;
        }
    }
    Ok(())
}

fn put_router_ports(
    alloc: Global,
    records: &Records,
    rows: &mut BTreeSet<Vec<u8>>,
) -> Result<(), NoMemory> {
    let ips = known_ips(alloc, records)?;
    for (name, port) in records.router_ports() {
        let unit = RouterPortUnit { port: port.name };
        put_unit(alloc, records, &unit, b"port ", name.text(), port.router, rows)?;
        for ip in &ips {
            if neighbour(records, name, *ip).is_some() {
                let unit = NeighbourUnit {
                    port: port.name,
                    ip: *ip,
                };
                let text = pair_text(alloc, name, *ip)?;
                put_unit(alloc, records, &unit, b"neighbour ", text.as_slice(), port.router, rows)?;
            }
        }
    }
    Ok(())
}

fn put_routers(
    alloc: Global,
    records: &Records,
    rows: &mut BTreeSet<Vec<u8>>,
) -> Result<(), NoMemory> {
    put_router_ports(alloc, records, rows)?;
    for (name, route) in records.routes() {
        let unit = RouteUnit { route: route.name };
        put_unit(alloc, records, &unit, b"route ", name.text(), route.router, rows)?;
    }
    for (name, router) in records.routers() {
        let unit = RouterUnit {
            router: router.name,
        };
        put_unit(alloc, records, &unit, b"router ", name.text(), router.name, rows)?;
    }
    Ok(())
}

// All rows, each with a line feed behind it.
fn rows_of(alloc: Global, records: &Records) -> Result<BTreeSet<Vec<u8>>, NoMemory> {
    let mut rows = BTreeSet::new(alloc);
    put_switches(alloc, records, &mut rows)?;
    put_routers(alloc, records, &mut rows)?;
    put_translating(alloc, records, &mut rows)?;
    Ok(rows)
}

// ---- lines

// Writes each row that only one side has, and answers how many there are.
fn compare(
    rt: HostRuntime,
    alloc: Global,
    line: u64,
    mut rows: BTreeSet<Vec<u8>>,
    wanted: &str,
) -> io::Result<u64> {
    let mut differences: u64 = 0;
    for text in wanted.split('\t') {
        let mut row: Vec<u8> = Vec::new(alloc);
        row.extend_from_slice(text.as_bytes())?;
        row.push(b'\n')?;
        if text != "" && !rows.remove(&row) {
            differences = differences.wrapping_add(1);
            println!(rt; "line {line}: only wanted {text}")?;
        }
    }
    for row in rows.iter() {
        differences = differences.wrapping_add(1);
        let text = str::from_utf8(row).unwrap_or("?");
        println!(rt; "line {line}: not wanted {}", text.strip_suffix('\n').unwrap_or("?"))?;
    }
    Ok(differences)
}

fn main(rt: HostRuntime) -> io::Result<()> {
    let alloc = rt.alloc();
    let Ok(mut records) = Records::new(alloc) else {
        return Ok(());
    };
    let mut lines: u64 = 0;
    let mut differences: u64 = 0;
    for line in BufReader::new(alloc, rt.reader())?.lines(alloc) {
        let line = line?;
        lines = lines.wrapping_add(1);
        let (word, rest) = line.split_once('\t').unwrap_or((line.as_str(), ""));
        if word == "flows" {
            let Ok(rows) = rows_of(alloc, &records) else {
                println!(rt; "no memory")?;
                return Ok(());
            };
            let found = compare(rt, alloc, lines, rows, rest)?;
            differences = differences.wrapping_add(found);
            continue;
        }
        let made = if word == "mark" {
            mark(alloc, &mut records, rest)
        } else {
            edit(alloc, &mut records, rest, lines)
        };
        if !made {
            differences = differences.wrapping_add(1);
            println!(rt; "line {lines}: not made {rest}")?;
        }
    }
    println!(rt; "{lines} lines, {differences} differences")?;
    Ok(())
}
PROGRAM

model=${1:-$top/../shared/model}
seeds=${2:-16}
edits=${3:-60}
first=${4:-1}
mkdir "$work/cases"
for ((seed = first; seed < first + seeds; seed++)); do
  python3 "$top/bench/flows_differ.py" "$model" "$seed" "$edits" >"$work/cases/$seed"
  echo "$(wc -l <"$work/cases/$seed") lines, 0 differences" >"$work/cases/$seed.stdout"
done
cd "$work/crates/timed"
"${RT:-rt}" try --seconds 3600 --cases "$work/cases"
