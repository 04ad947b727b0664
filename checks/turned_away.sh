#!/bin/sh
# Two programs that the checker must turn away: each is made from a good twin in crates/map_programs by one edit,
# and must be refused for its own reason and no other. It works on a copy, and changes nothing here.
set -eu
here=$(cd "$(dirname "$0")/.." && pwd)
room=$(mktemp -d)
trap 'rm -rf "$room"' EXIT
(cd "$here" && tar -cf - --exclude=out crates crates.txt) | tar -xf - -C "$room"
twin=crates/map_programs/src/entry_programs.rt

turned_away() { # NAME OLD NEW MESSAGE
    cp "$here/$twin" "$room/$twin"
    grep -qF -- "$2" "$room/$twin" || { echo "$1: the good twin has changed"; exit 1; }
    OLD=$2 NEW=$3 awk '{ at = index($0, ENVIRON["OLD"]); if (at) $0 = substr($0, 1, at - 1) ENVIRON["NEW"] substr($0, at + length(ENVIRON["OLD"])); print }' "$here/$twin" >"$room/$twin"
    (cd "$room/crates/map_programs" && rt check) >"$room/log" 2>&1 || true
    if [ "$(grep -c ': error' "$room/log")" -eq 1 ] && grep -qF -- "$4" "$room/log"; then
        echo "$1: turned away: $(grep -F ': error' "$room/log" | sed 's/^[^ ]*: //' | cut -c1-100)"
    else
        echo "$1: NOT turned away as it must be"
        grep ': error' "$room/log" || tail -n 3 "$room/log"
        exit 1
    fi
}

turned_away 'removing twice through one OccupiedEntry' 'second.remove(map)' 'first.remove(map)' 'error[borrow-e0382]: use of moved value: `first`'
turned_away 'handing a VacantEntry to the replacing call' 'let Entry::Occupied(entry) = map.entry(query) else {' 'let Entry::Vacant(entry) = map.entry(query) else {' 'error[mismatched-types]'
