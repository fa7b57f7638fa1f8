#!/usr/bin/env bash
# How long a plan of tunnel keys takes that adds 10,000 ports to a store of 10,000: on one switch, on a hundred and on ten
# thousand, beside the plan that removes 64 of them again. Not part of the gate. The program is written to a folder of its own,
# beside copies of the crates that it stands on. It proves nothing of an edit, so its copy of `KeyStore` has the code of the
# real one without its contracts.
set -euo pipefail
top=$(cd "$(dirname "$0")/.." && pwd)
folder=$(mktemp -d)
trap 'rm -rf "$folder"' EXIT
mkdir -p "$folder/crates/keys_bench/src"
for crate in ovn_base tunnel_keys; do
    mkdir -p "$folder/crates/$crate"
    for part in src specs proofs; do
        cp -r "$top/crates/$crate/$part" "$folder/crates/$crate/"
    done
done
keys="$folder/crates/tunnel_keys"
rm -rf "$keys/proofs/store" "$keys/proofs/tests" "$keys/proofs/laws" "$keys/src/tests" "$keys/src/tests.rt" "$keys/src/laws.rt"
sed -i '/^pub mod laws;/d; /^#\[cfg(test)\]/d; /^mod tests;/d' "$keys/src/lib.rt"
sed -i -e '/^ghost use/d' -e '/^ *\(requires\|ensures\) /d' -e '/ghost invariant/d' "$keys/src/store.rt"
cat > "$folder/crates.txt" <<'LIST'
ovn_base:
tunnel_keys: ovn_base
keys_bench: ovn_base tunnel_keys
LIST
cat > "$folder/crates/keys_bench/src/main.rt" <<'PROGRAM'
#![tactic(auto)]

use ovn_base::address::Birth;
use ovn_base::memory::NoMemory;
use ovn_base::name::Name;
use std::alloc::Global;
use std::io;
use std::time::Instant;
use tunnel_keys::owner::KeyOwner;
use tunnel_keys::store::KeyStore;

const PORTS: u64 = 10_000;

// The name of that number.
fn name(alloc: Global, kind: &str, number: u64) -> Result<Name, NoMemory> {
    let text = format!(in alloc; "{kind}{number}")?;
    Name::read(text.as_bytes()).ok_or(NoMemory)
}

// Ports by number, one after the other on each of the switches.
fn ports(
    alloc: Global,
    first: u64,
    birth: u64,
    switches: u64,
) -> Result<Vec<KeyOwner>, NoMemory> {
    let mut owners = Vec::new(alloc);
    for number in first..first.wrapping_add(PORTS) {
        owners.push(KeyOwner::Port {
            datapath: name(alloc, "s", number.checked_rem(switches).unwrap_or(0))?,
            name: name(alloc, "port-", number.wrapping_mul(7919) % 1_000_003)?,
            birth: Birth(birth),
        })?;
    }
    Ok(owners)
}

// Plans the edit and puts it into force.
fn edit(
    rt: HostRuntime,
    keys: &mut KeyStore,
    what: &str,
    added: &[KeyOwner],
    removed: &[KeyOwner],
) -> io::Result<()> {
    let start = Instant::now(&rt)?;
    let plan = keys.plan(added, removed).ok();
    let planned = start.elapsed(&rt)?.as_micros();
    let Some(plan) = plan else {
        return println!(rt; "  {what}: refused");
    };
    keys.apply(plan);
    let applied = start.elapsed(&rt)?.as_micros();
    println!(rt; "  {what}: plan {planned} us, with apply {applied} us")
}

fn measure(rt: HostRuntime, switches: u64) -> io::Result<()> {
    let alloc = rt.alloc();
    let Ok(mut keys) = KeyStore::with_ranges(alloc, 16_777_215, 32_767) else {
        return Ok(());
    };
    let Ok(mut first) = ports(alloc, 0, 1, switches) else {
        return Ok(());
    };
    for number in 0..switches {
        let Ok(called) = name(alloc, "s", number) else {
            return Ok(());
        };
        first.push(KeyOwner::Datapath {
            name: called,
            birth: Birth(1),
        })?;
    }
    println!(rt; "{switches} switches")?;
    edit(rt, &mut keys, "the first 10,000 ports", first.as_slice(), &[])?;
    let Ok(more) = ports(alloc, PORTS, 2, switches) else {
        return Ok(());
    };
    edit(rt, &mut keys, "10,000 ports beside 10,000", more.as_slice(), &[])?;
    let few = more.get(..64).unwrap_or(&[]);
    edit(rt, &mut keys, "64 of 20,000 ports removed", &[], few)
}

fn main(rt: HostRuntime) -> io::Result<()> {
    for switches in [1, 100, 10_000] {
        measure(rt, switches)?;
    }
    Ok(())
}
PROGRAM
cd "$folder/crates/keys_bench"
"${RT:-rt}" run
