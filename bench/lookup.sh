#!/usr/bin/env bash
# How many look-ups a second of processor time `TupleSpace` does among 75,000 flows of 30 priorities and 100 masks in one table,
# beside the list `Tables` and, where there is a `rustc`, maps of Rust's own by the same masks (lookup.rs). Each packet matches one
# flow. Not part of the gate.
set -euo pipefail
source "$(dirname "$0")/loops.sh"

make_program ovn_base inet_packet flow_table tuple_space <<'EOF'
//! Looks packets up among many flows, again and again.
#![tactic(auto)]
ghost use Rattle.std.specs.Prelude.{◌≡◌, ◌<◌, [], IfOk};
ghost use Rattle.ovn_base.specs.lists.Once.{EachOnce};

use flow_table::exact::exact_op_clone;
use flow_table::few::Few;
use flow_table::flow::{Flow, SharedFlow};
use flow_table::lookup::Lookup;
use flow_table::tables::Tables;
use inet_packet::cube::{Bits, Cube};
use inet_packet::packet::{Body, Ip4Packet, Packet, Part};
use inet_packet::regs::{At, RegFlags, Regs};
use ovn_base::address::{Ip4, Mac};
use ovn_base::boxed::Boxed;
use ovn_base::counted::Counted;
use ovn_base::delta::Delta;
use ovn_base::list::List;
use ovn_base::memory::NoMemory;
use std::alloc::Global;
use std::{env, io};
use tuple_space::space::TupleSpace;

const FLOWS: u64 = 75_000;
const MASKS: u64 = 100;
const PACKETS: usize = 4_096;

// Numbers that look thrown: the function of the generator SplitMix64.
fn mixed(number: u64) -> u64 {
    let a = number.wrapping_mul(0x9e37_79b9_7f4a_7c15);
    let b = (a ^ (a >> 30)).wrapping_mul(0xbf58_476d_1ce4_e5b9);
    let c = (b ^ (b >> 27)).wrapping_mul(0x94d0_49bb_1331_11eb);
    c ^ (c >> 31)
}

fn thrown(number: u64, field: u64) -> u64 {
    mixed(number.wrapping_mul(16).wrapping_add(field))
}

fn word(number: u64, field: u64) -> u32 {
    (thrown(number, field) % 0x1_0000_0000) as u32
}

fn half(number: u64, field: u64) -> u16 {
    (thrown(number, field) % 0x1_0000) as u16
}

fn mac(number: u64, field: u64) -> Mac {
    let [a, b, c, d] = word(number, field).to_be_bytes();
    Mac([0, 0, a, b, c, d])
}

// The registers and the packet of this number.
fn regs(number: u64) -> Regs {
    Regs {
        dp: (thrown(number, 0) % 0x100_0000) as u32,
        in_port: u32::from(half(number, 1)),
        out_port: u32::from(half(number, 2)),
        next: word(number, 3),
        z_in: u32::from(half(number, 4)),
        z_out: 0,
        z_dnat: 0,
        z_snat: 0,
        state: 0,
        verdict: 0,
        tier: 0,
        flags: RegFlags(0),
        at: At::Tunnel,
    }
}

fn packet(alloc: Global, number: u64) -> Packet {
    Packet {
        src: mac(number, 5),
        dst: mac(number, 6),
        body: Body::Ip4(Ip4Packet {
            tos: 0,
            total: 28,
            ident: 0,
            frag: 0,
            ttl: (thrown(number, 9) % 256) as u8,
            proto: 17,
            sum: 0,
            src: Ip4(word(number, 7)),
            dst: Ip4(word(number, 8)),
            options: List::new(alloc),
            part: Part::Udp {
                src_port: half(number, 10),
                dst_port: half(number, 11),
                len: 8,
                sum: 0,
            },
        }),
        tail: List::new(alloc),
    }
}

// The packets that have in the fields of the mask what the packet of this number has.
fn cube(mask: u64, number: u64) -> Cube {
    let bits = |field: u64, width: u32, value: u64| -> Bits
        requires width { width < 64 }
        requires field { field < 64 }
    {
        if mask >> field & 1 == 1 { Bits::exactly(width, value) } else { Bits::ANY }
    };
    let of = regs(number);
    Cube {
        dp: bits(0, 24, u64::from(of.dp)),
        in_port: bits(1, 16, u64::from(of.in_port)),
        out_port: bits(2, 16, u64::from(of.out_port)),
        next: bits(3, 32, u64::from(of.next)),
        z_in: bits(4, 16, u64::from(of.z_in)),
        eth_src: bits(5, 48, mac(number, 5).number()),
        eth_dst: bits(6, 48, mac(number, 6).number()),
        ip4_src: bits(7, 32, u64::from(word(number, 7))),
        ip4_dst: bits(8, 32, u64::from(word(number, 8))),
        ip_ttl: bits(9, 8, thrown(number, 9) % 256),
        udp_src: bits(10, 16, u64::from(half(number, 10))),
        udp_dst: bits(11, 16, u64::from(half(number, 11))),
        ..Cube::EVERYTHING
    }
}

// Which of twelve fields each mask asks for: three to six of them.
fn masks(alloc: Global) -> Result<Vec<u64>, NoMemory> {
    let mut masks = Vec::new(alloc);
    for round in 0..4_000 {
        let mask = mixed(10_000_000 + round) % 4_096;
        let asks = mask.count_ones();
        if 3 <= asks && asks <= 6 && !masks.contains(&mask) && masks.len() < 100 {
            masks.push(mask)?;
        }
    }
    Ok(masks)
}

// The priority of the flow of this number: its own, or its mask's.
fn priority(by: &str, number: u64) -> u16 {
    if by == "mask" {
        (number % MASKS % 30) as u16
    } else {
        (mixed(number.wrapping_add(20_000_000)) % 30) as u16
    }
}

// The flow of this number, which does nothing.
fn flow(alloc: Global, mask: u64, by: &str, number: u64) -> Result<SharedFlow, NoMemory>
    ensures { IfOk result (λ f. f.cookie ≡ number) }
{
    exact_op_clone();
    let cube = cube(mask, number);
    let _entry: &Option<At> = &cube.at;
    let flow = Flow {
        table: 8,
        priority: priority(by, number),
        rank: 0,
        cube: Boxed::new(alloc, cube)?,
        ops: Few::from_slice(alloc, &[])?,
        cookie: number,
    };
    Counted::new(alloc, flow)
}

fn flows(alloc: Global, by: &str) -> Result<List<SharedFlow>, NoMemory>
    ensures { IfOk result (λ flows. EachOnce flows) }
{
    let masks = masks(alloc)?;
    let mut flows = List::new(alloc);
    for number in 0..FLOWS {
        let mask = masks
            .get((number % MASKS) as usize)
            .copied()
            .unwrap_or(0);
        flows.push(flow(alloc, mask, by, number)?)?;
    }
    Ok(flows)
}

// The packets: of any flows, or of those with the least priority.
fn packets(alloc: Global, by: &str) -> Result<Vec<(u64, Regs, Packet)>, NoMemory> {
    let mut packets = Vec::new(alloc);
    for round in 0..1_000_000 {
        let number = mixed(30_000_000 + round) % FLOWS;
        if packets.len() < PACKETS && (by != "last" || priority(by, number) == 0) {
            packets.push((number, regs(number), packet(alloc, number)))?;
        }
    }
    Ok(packets)
}

fn fill<T: Lookup>(held: &mut T, flows: List<SharedFlow>) -> Result<(), NoMemory>
    requires empty { T.flows held.old ≡ [] }
    requires once { EachOnce flows }
{
    let removed = List::new(flows.allocator());
    let delta = Delta {
        added: flows,
        removed,
    };
    held.prepare(&delta)?;
    held.replace(delta);
    Ok(())
}

// How many look-ups find the flow of their packet.
fn found<T: Lookup>(held: &T, packets: &[(u64, Regs, Packet)], rounds: usize) -> usize {
    let mut seen: usize = 0;
    for round in 0..rounds {
        if let Some((number, regs, packet)) = packets.get(round % PACKETS) {
            if let Some(flow) = held.lookup(8, regs, packet) {
                if flow.get().cookie == *number {
                    seen = seen.wrapping_add(1);
                }
            }
        }
    }
    seen
}

fn run(alloc: Global, what: &str, by: &str, rounds: usize) -> Result<usize, NoMemory> {
    let flows = flows(alloc, by)?;
    let packets = packets(alloc, by)?;
    if what == "list" {
        let mut list = Tables::new(alloc)?;
        fill(&mut list, flows)?;
        return Ok(found(&list, packets.as_slice(), rounds));
    }
    let mut masks = TupleSpace::new(alloc)?;
    fill(&mut masks, flows)?;
    Ok(found(&masks, packets.as_slice(), rounds))
}

fn main(rt: HostRuntime) -> io::Result<()> {
    let words: Vec<String> = env::args(&rt)?.skip(1).collect(rt.alloc())?;
    let [what, by, rounds] = words.as_slice() else {
        return Ok(());
    };
    let rounds = rounds.parse::<usize>().unwrap_or(0);
    let seen = run(rt.alloc(), what.as_str(), by.as_str(), rounds).unwrap_or(0);
    println!(rt; "{seen}")?;
    Ok(())
}
EOF

# The flows are each other ones, by their cookies.
mkdir -p "$work/crates/timed/proofs/flows"
cat >"$work/crates/timed/proofs/flows/Invariants.antt" <<'EOF'
use Rattle.std.specs.Prelude.{◌<◌}
use Rattle.ovn_base.specs.lists.Among.{Among}
use Rattle.ovn_base.specs.lists.Once.{EachOnce}
use Rattle.flow_table.specs.declared.flow.Flow.{Flow}
use Rattle.timed.proofs.flows.Given as goal

-- each once, and their numbers are below the next
abbrev pub invariant-loop-number : goal.invariant-loop-number
invariant-loop-number l = record { once : EachOnce l.flows; below : (f : Flow) → Among f l.flows → f.cookie < l.number }
EOF
cat >"$work/crates/timed/proofs/flows/Answers.antt" <<'EOF'
use Rattle.std.proofs.Common.{◌≡◌, ◌<◌, [], ◌∷◌, ◌++◌, arith, sym, ap, subst, inl, inr}
use Rattle.ovn_base.specs.lists.Among.{Among}
use Rattle.ovn_base.specs.lists.Once.{EachOnce}
use Rattle.ovn_base.proofs.AmongLaws.{among_append, among_cases, among_none}
use Rattle.flow_table.proofs.OnceLaws.{once_push}
use Rattle.flow_table.specs.declared.flow.Flow.{Flow}
use Rattle.timed.proofs.flows.Goals as goal

pub loop-number-preserved : goal.loop-number-preserved
loop-number-preserved c =
    let number : c.in_ok-flow.field-0.cookie ≡ c.loop-number.number = c.in_ok-flow.ensures in
    let pushed : c.push.new.self ≡ c.loop-number.flows ++ c.in_ok-flow.field-0 ∷ [] = c.in_ok-push.ensures.ok in
    record {
      once = subst EachOnce (sym pushed) (once_push c.loop-number.flows c.in_ok-flow.field-0 c.loop-number.invariant.once (λ m. let below = c.loop-number.invariant.below c.in_ok-flow.field-0 m in omega (arith, below, number)));
      below = λ f m. elim (among_append f c.loop-number.flows (c.in_ok-flow.field-0 ∷ []) (subst (λ l. Among f l) pushed m)) [
        | inl a ↦ let below = c.loop-number.invariant.below f a in omega (arith, below)
        | inr b ↦ elim (among_cases f c.in_ok-flow.field-0 [] b) [ inl e ↦ let same : f.cookie ≡ c.in_ok-flow.field-0.cookie = ap (λ (g : Flow). g.cookie) e in omega (arith, same, number) | inr n ↦ absurd (among_none f n) ]
      ];
    }
EOF
build_program

proved=$work/crates/timed/out/timed
plain=
if command -v rustc >/dev/null; then
  plain=$work/plain
  rustc -O --edition 2024 -o "$plain" "$top/bench/lookup.rs"
fi

# The least seconds of processor time that five runs take: which program, what, which packets, and how many look-ups.
spent() {
  local taken best='' TIMEFORMAT=%U
  for _ in 1 2 3 4 5; do
    taken=$({ time "$1" "$2" "$3" "$4" >"$work/said"; } 2>&1)
    if [[ $(<"$work/said") != "$4" ]]; then
      echo "$2 finds $(<"$work/said") flows in the place of $4" >&2
      exit 70
    fi
    best=$(awk -v taken="$taken" -v best="${best:-$taken}" 'BEGIN { print (taken < best ? taken : best) }')
  done
  echo "$best"
}

# How many look-ups a second there are, over what one takes with all that goes before it.
rate() {
  local full one
  full=$(spent "$1" "$2" "$3" "$4")
  one=$(spent "$1" "$2" "$3" 1)
  awk -v full="$full" -v one="$one" -v many="$4" 'BEGIN { printf "%d", (many - 1) / (full - one) }'
}

# The flows have priorities of their own, or their mask's, and the packets match any flows, or those with the least priority.
while read -r by what; do
  echo "$what:"
  echo "  by masks $(rate "$proved" masks "$by" 400001) a second, in a list $(rate "$proved" list "$by" 301)"
  if [[ -n $plain ]]; then
    echo "  plain maps $(rate "$plain" sip "$by" 400001) a second, with a faster hash $(rate "$plain" fold "$by" 400001);" \
      "$("$plain" asked "$by" 400001) masks asked each time"
  fi
done <<'EOF'
mask each mask has one priority
flow each flow has a priority of its own
last the same, and each packet's flow has the least priority, so that all masks are asked
EOF
