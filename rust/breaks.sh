#!/bin/sh
# Tries the nineteen breaks of BREAKS.md. Each is applied to a copy of this workspace, and the named test
# must compile and then fail where the two engines differ; on the untouched copy every named test must
# pass. Needs the archive that CHIRIMOK_STATION names, by default ../target/staticlib/libstation.a.
set -eu

here=$(cd "$(dirname "$0")" && pwd)
archive=${CHIRIMOK_STATION:-$here/../target/staticlib/libstation.a}
CHIRIMOK_STATION=$(cd "$(dirname "$archive")" && pwd)/$(basename "$archive")
export CHIRIMOK_STATION
if [ ! -f "$CHIRIMOK_STATION" ]; then
    echo "no archive at $CHIRIMOK_STATION" >&2
    exit 2
fi

# So many rounds bring about every answer that the tests expect, and show every break.
export CHIRIMOK_ROUNDS=300

# What is built for one break serves the next, which differs in one file of plain. Nobody debugs it.
work=$(mktemp -d)
trap 'rm -rf "$work"' EXIT
export CARGO_TARGET_DIR="$work/target" CARGO_PROFILE_DEV_DEBUG=0
mkdir "$work/rust"
(cd "$here" && tar cf - --exclude=./target .) | (cd "$work/rust" && tar xf -)
cd "$work/rust"
unnoticed=0

# named_test TEST-FILE TEST: runs a test of the copy, with its output in the log.
named_test() {
    cargo test --offline -q -p chirimok --test "$1" -- --exact "$2" >"$work/log" 2>&1
}

# break_it NUMBER FILE SED-EXPRESSION TEST-FILE TEST
break_it() {
    sed "$3" "$here/$2" >"$2"
    if cmp -s "$here/$2" "$2"; then
        echo "break $1: the edit finds nothing to change in $2" >&2
        exit 2
    fi
    if named_test "$4" "$5"; then
        echo "break $1: NOT noticed by $4 ($5)"
        unnoticed=$((unnoticed + 1))
    elif grep -q 'station and plain' "$work/log"; then
        echo "break $1: noticed by $4 ($5): $(grep -m 1 -o 'station and plain.*' "$work/log" | cut -c 1-100)"
    else
        cat "$work/log" >&2
        echo "break $1: $4 ($5) fails, and not where the engines differ" >&2
        exit 2
    fi
    cp "$here/$2" "$2"
}

for test in agree_on_histories agree_on_damage agree_on_sizes; do
    cargo test --offline -q -p chirimok --test "$test" agree_on >"$work/log" 2>&1 || {
        cat "$work/log" >&2
        echo "$test fails without any break" >&2
        exit 2
    }
done
echo "no break: the tests named below pass"

break_it 1 plain/src/desk.rs 's/filter(|&member| member != 0)/filter(|_| false)/' \
    agree_on_histories agree_on_histories
break_it 2 plain/src/sight.rs 's/committed(status, number) &&/number != 0 \&\&/' \
    agree_on_damage agree_on_odd_bytes
break_it 3 plain/src/withdraw.rs '/^fn put_back/,/^}/s/clear_expirer(data, slot);//' \
    agree_on_histories agree_on_histories
break_it 4 plain/src/entry.rs 's/u32_at(entry, ROW) as usize == row/row < usize::MAX/' \
    agree_on_damage agree_on_broken_chains
break_it 5 plain/src/sight.rs 's/cmd < self.statement/cmd <= self.statement/' \
    agree_on_histories agree_on_histories
break_it 6 plain/src/sight.rs 's/else if committed(status, writer)/else if !committed(status, writer)/' \
    agree_on_histories agree_on_histories
break_it 7 plain/src/sweep.rs 's/touched.finish(data, undo, None)/touched.finish(data, undo, Some(mark))/' \
    agree_on_histories agree_on_histories
break_it 8 plain/src/desk.rs 's/place >= limit/place > limit/' \
    agree_on_damage agree_on_desks
break_it 9 plain/src/page.rs 's/u16_at(page, ITEM_COUNT) == self.count_items(page)/true/' \
    agree_on_damage agree_on_wrong_headers
break_it 10 plain/src/page.rs '/const DATA/,/};/s/most: 64/most: 65/' \
    agree_on_damage agree_on_lengths
break_it 11 plain/src/desk.rs 's/lanes.iter().chain(rest)/lanes.iter()/' \
    agree_on_damage agree_on_desks
break_it 12 plain/src/page.rs '/^pub fn seal_area/,/^}/s/iter_mut()/iter_mut().take(60)/' \
    agree_on_sizes agree_on_sizes
break_it 13 plain/src/page.rs '/^fn checksum/,/^}/s/\.over(&\[0; 4\])//' \
    agree_on_histories agree_on_histories
break_it 14 plain/src/sight.rs 's/number != self.number && reserved/reserved/' \
    agree_on_damage agree_on_reserved_numbers
break_it 15 plain/src/rows.rs 's/desk\.spoil(place);//' \
    agree_on_histories agree_on_histories
break_it 16 plain/src/sessions.rs '/^pub fn commit/,/^}/s/unspoiled_session/session/' \
    agree_on_histories agree_on_histories
break_it 17 plain/src/rows.rs 's/refusal == Refusal::WriterCommitted/refusal.number() >= 9/' \
    agree_on_histories agree_on_histories
break_it 18 plain/src/desk.rs 's/self\.marks\.copy_within(place + 1\.\.=last, place);//' \
    agree_on_histories agree_on_histories
break_it 19 plain/src/desk.rs 's/column_sound(&self\.marks, open, Self::SPOILED)/true/' \
    agree_on_damage agree_on_desks

exit "$((unnoticed > 0))"
