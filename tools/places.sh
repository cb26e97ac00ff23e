#!/bin/sh
# Lists the places of each form of the older language in the sources of a commit (HEAD, if none is named), one line each.
# Usage: tools/places.sh [COMMIT] [POINT]; docs/DESIGN-PASS.md says which of the lines are places.
at=${1:-HEAD}
only=${2:-}

# A point, what it looks for, and the pattern.
look() {
    point=$1
    what=$2
    shift 2
    [ -z "$only" ] || [ "$only" = "${point%%.*}" ] || return 0
    echo "== $point $what: $(git grep -hE "$@" "$at" -- 'crates/*/src/*.rt' 'crates/*/src/**/*.rt' | wc -l)"
    git grep -nE "$@" "$at" -- 'crates/*/src/*.rt' 'crates/*/src/**/*.rt' | sed "s/^$at:crates.//"
}

look 1.1 'enums, to be read for the shape of Option or Result' -e '^ *(pub(\([a-z]+\))? )?enum '
look 1.2 'results of results' -e 'Result<(Result|Option)<'
look 1.3 'numbers for refusals' -e '-> (Result<[^<>]*(<[^<>]*>)?, u(8|16|32|64)>|Option<u32>)'
look 1.4 'numbers for kinds' -e '^ *(pub )?(class|year|kind|cause|layer): u(8|16|32)' -e '^(pub )?const [A-Z_]+: u8 = [0-9]+;'
look 1.5 'flags that say whether something was done, values that say there is none' -e 'fn admit_' -e ' 0 where ' -e 'number == 0|start == 0'
look 2.1 'every function, to be read side by side' -e '^ *(pub(\([a-z]+\))? )?fn [a-z_0-9]+'
look 3.1 'loops over numbers' -e 'for [a-z_]+ in [^{]*\.\.'
look 3.2 'loops without a list' -e '^ *('"'"'[a-z]+: )?(while|loop)\b'
look 3.3 'loops over lists' -e 'for [^{]* in [^{.]*(\.iter\(\)[^{]*)?\{$'
look 4.1 'equality by hand' -e 'fn (same|is_mean|counts_as)_?[a-z_]*\(' -e '==.*&&.*=='
look 4.2 'conversion by hand: numbers of variants, words of variants' -e 'fn ([a-z]+_)?(number|words?|reason)\(' -e 'fn (byte|count|cents|hour|up_to|hour_count|from_zero|below_zero|verb_of)\('
look 4.3 'casts' -e ' as (u|i)(8|16|32|64|128|size)\b'
look 4.4 'printing' -e 'impl fmt::Display' -e '-> &.static str'
look 5.1 'facts that functions ask for' -e '^ *requires '
look 5.2 'parameters: location, slot and year; first and second; recent and distant; heap and out; low and high' -e 'location: u8, slot: Slot, year: u8|^ +location: u8,$|first: &\[i32\], second|recent: (\(i64|&)|^ +out: &mut String,|low: i64, high: i64'
look 6.1 'arrays, and lengths beside them' -e '\[[A-Za-z0-9_<>]+; [A-Za-z0-9_]+\]'
look 7.1 'a match or a test on what step to run' -e 'match (self\.part|stop|kind|verb|\(kind, outcome\))' -e 'dyn |: fn\('
