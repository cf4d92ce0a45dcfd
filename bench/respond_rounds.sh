#!/usr/bin/env bash
# How fast the response equations are solved: what a round costs in processor time, least of three runs, at four sizes of each form, and the
# exponent by which a round grows with the size. `pairs`: so many rows whose periods are 1,000 times their costs, of which all change in each
# round but the last; `started`: so many rows, each started by the next one, where jitters change in each round from the first row on; `last`:
# so many rows of which the last alone changes in nearly all rounds; `long`: two rows below one that leaves them a tick of each so many, where
# rounds become many and each costs as much as before. Names of forms as words measure those alone. No part of the gate.
PROGRAM=${PROGRAM:-none}
source "$(dirname -- "${BASH_SOURCE[0]}")/measure.sh"

# A repository of two crates: the library, without its tests and edits, and a program that calls it.
mkdir -p "$room/crates/rounds/src" "$room/crates/rounds/proofs/is_table" "$room/crates/rt_response"
cp -r "$top/crates/rt_response/src" "$top/crates/rt_response/specs" "$top/crates/rt_response/proofs" "$room/crates/rt_response"
printf 'rt_response:\nrounds: rt_response\n' >"$room/crates.txt"
[ ! -e "$top/HANDLES" ] || cp "$top/HANDLES" "$room"
# The test of a table is that of the tests, and so is its invariant.
sed -e 's/Rattle\.lower_tests\.proofs\.bounds\.is_table/Rattle.rounds.proofs.is_table/' \
    "$top/crates/lower_tests/proofs/bounds/is_table/Invariants.antt" >"$room/crates/rounds/proofs/is_table/Invariants.antt"
{
    cat <<'END'
#![tactic(auto)]

ghost use Rattle.std.specs.Prelude.{◌≡◌, true, length};
ghost use Rattle.rt_response.specs.Tables.{IsRow, IsTable};

use rt_response::{Bound, ThreadRow, respond};
use std::env;
use std::io;

END
    sed -n '/^\/\/\/ Whether a row is one of a table/,/^#\[test\]/p' "$top/crates/lower_tests/src/bounds.rt" | sed '$d'
    cat <<'END'
fn turns(table: &[ThreadRow], bounds: &mut [Bound], count: u32) -> u32
    requires table { IsTable table.now }
    requires long { length bounds.old ≡ length table.now }
{
    let mut solved = 0u32;
    for _ in 0..count {
        if respond(table, bounds).is_ok() {
            solved = solved.wrapping_add(1);
        }
    }
    solved
}

fn row(period: u32, cost: u32, starter: Option<u32>) -> ThreadRow {
    ThreadRow { period, deadline: period, jitter: 0, cost, block: 0, starter }
}

fn pairs(table: &mut [ThreadRow]) {
    let mut cost = 0u32;
    for slot in table.iter_mut() {
        cost = cost.wrapping_add(1000);
        *slot = row(cost.wrapping_mul(1000), cost, None);
        slot.block = 500;
    }
}

fn started(table: &mut [ThreadRow], rows: u32) {
    let mut starter = 0u32;
    for slot in table.iter_mut() {
        starter = starter.wrapping_add(1);
        *slot = row(100_000_000, 1000, if starter < rows { Some(starter) } else { None });
    }
}

fn last(table: &mut [ThreadRow], rows: u32) {
    let mut place = 0u32;
    for slot in table.iter_mut() {
        *slot = row(3000u32.wrapping_add(place), if place == 0 { 2900 } else { 1 }, None);
        place = place.wrapping_add(1);
        if place == rows {
            *slot = row(1_000_000_000, 900_000, None);
        }
    }
}

fn main(rt: HostRuntime) -> io::Result<()> {
    let mut words = env::args(&rt)?;
    let _ = words.next();
    let (Some(form), Some(size), Some(count)) = (words.next(), words.next(), words.next()) else {
        return Ok(());
    };
    let (Ok(size), Ok(count)) = (size.as_str().parse::<u32>(), count.as_str().parse::<u32>()) else {
        return Ok(());
    };
    let mut table = [row(1000, 1000, None); 30];
    let rows = if form.as_str() == "long" { 3 } else { size };
    if rows < 3 || 30 < rows {
        return Ok(());
    }
    if form.as_str() == "pairs" {
        pairs(&mut table);
    } else if form.as_str() == "started" {
        started(&mut table, rows);
    } else if form.as_str() == "last" {
        last(&mut table, rows);
    } else {
        table[0] = row(size, size.wrapping_sub(1), None);
        table[1] = row(1_000_000_000, 990_000, None);
        table[2] = row(1_000_000_000, 9_000, None);
    }
    let mut bounds = [Bound { jitter: 0, response: 0 }; 30];
    let (table, _) = table.split_at(rows as usize);
    let (bounds, _) = bounds.split_at_mut(rows as usize);
    if is_table(table) {
        let solved = turns(table, bounds, count);
        let last = bounds[rows as usize - 1].response;
        println!(rt; "{solved} {last}")?;
    }
    Ok(())
}
END
} >"$room/crates/rounds/src/main.rt"

# Builds the program, and runs it a first time, before the clock starts.
if ! (cd "$room/crates/rounds" && rt run) >"$room/built" 2>&1; then
    cat "$room/built" >&2
    exit 1
fi
program=$room/crates/rounds/out/rounds

# Solves a table of this form and size so many times, and tells the processor time of a round. Its rounds and last response are known.
solve() {
    local form=$1 size=$2 count=$3 rounds=$4 last=$5
    run "$form" "$size" "$count"
    if [ "$(said)" != "$count $last" ]; then
        printf 'the program wrote %s\n' "$(said)" >&2
        exit 1
    fi
    awk -v form="$form" -v size="$size" -v rounds="$((count * rounds))" -v seconds="$best" -v times="$room/times" 'BEGIN {
        printf "%s, size %d: %d rounds in %.3f s, %.1f ns a round\n", form, size, rounds, seconds, seconds * 1e9 / rounds
        print size, seconds * 1e9 / rounds >>times
    }'
}

[ $# -gt 0 ] || set -- pairs started last long
for form in "$@"; do
    : >"$room/times"
    case $form in
        # Rounds 0, 1 and 2, of which the last changes nothing.
        pairs)
            solve pairs 4 1000000 3 10500
            solve pairs 8 400000 3 36500
            solve pairs 16 100000 3 136500
            solve pairs 30 40000 3 465500
            ;;
        started)
            solve started 4 400000 6 4000
            solve started 8 100000 10 8000
            solve started 16 20000 18 16000
            solve started 30 4000 32 30000
            ;;
        last)
            solve last 4 20000 193 27551959
            solve last 8 10000 201 28721980
            solve last 16 5000 219 31382997
            solve last 30 2000 262 37430991
            ;;
        long)
            solve long 125 2000 1194 124875000
            solve long 250 1000 2217 249750000
            solve long 500 500 4088 499500000
            solve long 1000 250 7484 999000000
            ;;
    esac
    printf '%s: exponent %s\n' "$form" "$(exponent "$room/times")"
done
