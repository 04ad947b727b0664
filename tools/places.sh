#!/bin/bash
# Counts, in the tree that is given or the one here, the lines in which an older form may stand: one number for each search.
# With a word after the tree it prints the lines of that search.  tools/places.sh [TREE [SEARCH]]
cd "${1:-$(dirname "$0")/..}" || exit 1
only=$2
search() { # name, what it looks for, pattern
    local lines
    lines=$(grep -rnE --include=*.rt -- "$3" crates/*/src)
    if [ -z "$only" ]; then
        printf '%-12s %4d  %s\n' "$1" "$(printf '%s' "$lines" | grep -c .)" "$2"
    elif [ "$only" = "$1" ]; then
        printf '%s\n' "$lines"
    fi
}
search enums 'own enums' '^(pub )?enum '
search passed-on 'a Some, an Ok or an Err handed on by a match' '(Some|Ok|Err)\([a-z_]*\) => (return )?(Some|Ok|Err)\(|None => (return )?(None|Err)|Err\(_\) => (return )?(None|Err)'
search numbered 'a number or a flag for a kind' '\b(way|last|number): (u8|u32|bool)\b|^const [A-Z_]+: u8'
search indexed 'loops over a range, and while' '\b(for [a-z_]+ in .*\.\.|while )'
search counters 'a count kept by hand' '(\+= 1;|saturating_add\(1\)|wrapping_add\(1\)|/= 2;)'
search by-hand 'equality, order, conversion and printing written out' '\bfn (same|compare|of|name|largest|compare_numbers|write_[a-z_]+|print_[a-z_]+|[a-z]+_name)\b'
search sound 'clauses that say that a map is sound' '^ *(requires|ensures).*\{ Sound '
search together 'numbers beside their slots, two boards side by side' '(numbers|items): &(mut )?ItemSet|(stays|sailings): &mut Board'
search arrays 'fields and parameters of slices, arrays and Vecs' '^ *(pub(\(crate\))? )?[a-z_]+: (&.*\[|Vec<|\[).*,$|^type '
search steps 'traits, and tests of a number for what to do' '^(pub )?trait |if way == |^ +match x '
twins() { grep -rhoE --include=*.rt '\bfn [a-z_]+' crates/*/src | sort | uniq -c | awk '$1 > 1'; }
answers() { find crates/*/proofs -name Answers.antt -exec cat {} + | grep -cE '^pub .* : goal\.'; }
if [ -z "$only" ]; then
    printf '%-12s %4d  %s\n' twins "$(twins | wc -l)" 'names that two or more functions have'
    printf '%-12s %4d  %s\n' answers "$(answers)" 'answers in proofs'
    printf '%-12s %4d  %s\n' lines "$(cat crates/*/proofs/*.antt | wc -l)" 'lines of lemmas'
elif [ "$only" = twins ]; then
    twins
fi
