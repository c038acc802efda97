#!/bin/sh
# Plants each of five easy ways to get a rule wrong, two of a store with checkpoints and one
# of a network that repeats, in a copy of the peer, one at a time, and checks that the comparison
# finds it.
#
#   mutants.sh [SEEDS [RECORDER INSPECT]]
#
# Without two programs to compare with, the unchanged peer stands in for them.
set -eu

peer=$(cd "$(dirname "$0")" && pwd)
seeds=${1:-400}
work=$(mktemp -d)
trap 'rm -rf "$work"' EXIT

# Builds the copy's source as it stands; what the compiler says shows only if it fails.
build() {
    if ! CARGO_TARGET_DIR="$work/target" cargo build --offline \
        --manifest-path "$work/peer/Cargo.toml" > "$work/log" 2>&1; then
        cat "$work/log"
        exit 2
    fi
}

# Makes a program that runs one subcommand of the unchanged peer.
stand_in() {
    printf '#!/bin/sh\nexec "%s" %s\n' "$work/unchanged" "$1" > "$work/$1"
    chmod +x "$work/$1"
}

# Runs the comparison and leaves its exit code in $found: 1 if there is a difference.
compare() {
    found=0
    "$work/target/debug/peer" compare 0 "$seeds" "$recorder" "$inspect" > "$work/difference" \
        || found=$?
    if [ "$found" -gt 1 ]; then
        exit 2
    fi
}

planted=0
missed=0

# plant MARK NAME EDIT: breaks the one line that is marked so.
plant() {
    planted=$((planted + 1))
    cp "$peer/src/rules.rs" "$work/peer/src/rules.rs"
    if [ "$(grep -c "// $1\$" "$peer/src/rules.rs")" != 1 ]; then
        echo "$1 isn't marked in one line"
        exit 2
    fi
    sed -i "$3" "$work/peer/src/rules.rs"
    if cmp -s "$peer/src/rules.rs" "$work/peer/src/rules.rs"; then
        echo "$1: the marked line is no longer as the edit expects it"
        exit 2
    fi
    build
    compare
    if [ "$found" = 1 ]; then
        echo "$1, $2: found, $(head -n 1 "$work/difference" | cut -d , -f 1)"
    else
        echo "$1, $2: NOT found in $seeds seeds"
        missed=$((missed + 1))
    fi
}

mkdir "$work/peer"
cp -r "$peer/Cargo.toml" "$peer/Cargo.lock" "$peer/src" "$work/peer/"
build
cp "$work/target/debug/peer" "$work/unchanged"
stand_in recorder
stand_in inspect
recorder=${2:-$work/recorder}
inspect=${3:-$work/inspect}

compare
if [ "$found" = 1 ]; then
    echo "the unchanged peer differs already:"
    cat "$work/difference"
    exit 1
fi

plant "easy way 1" "a late record overwrites an update's viewlink" \
    's|place.working.viewlink.get_or_insert(viewlink); // easy way 1|place.working.viewlink = Some(viewlink);|'
plant "easy way 2" "a uack from a replaced destination finishes the update" \
    's|entry.destination == store; // easy way 2|true;|'
plant "easy way 3" "the second repair leaves the other entry" \
    's|other.destination = own; // easy way 3||'
plant "easy way 4" "cause links are set at sending only" \
    's|cause_links\[usize::from(cause)\] = receipt.store; // easy way 4||'
plant "easy way 5" "an ack from a store that was left is accepted" \
    's|record.store == store; // easy way 5|true;|'

plant "checkpoint 1" "a crash keeps what the store took and owes" \
    's|store.places_mut().for_each(Place::throw_back); // checkpoint 1||'
plant "checkpoint 2" "a record is acknowledged before the checkpoint" \
    's|place.ack_owed = true; // checkpoint 2|place.send(What::Ack);|'
plant "duplicate" "a sixteenth copy is counted" \
    's|place.send(what); // duplicate|place.copies[what as usize] += 1;|'

echo "$((planted - missed)) of $planted found"
[ "$missed" = 0 ]
