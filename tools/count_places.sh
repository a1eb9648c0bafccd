#!/bin/sh
# Lists the places in src/ that a design pass looks at, at a commit: tools/count_places.sh COMMIT [POINT]
# Each line is a place to read, and not yet a fault; docs/DESIGN-PASS.md says which are.
at=${1:?commit}
only=${2:-}
src='crates/*/src/*.rt'
look() {
    [ -z "$only" ] || [ "$only" = "$1" ] || return 0
    point=$1
    shift
    git grep -nE "$@" "$at" -- "$src" | sed "s/^$at://" | sed "s/^/$point /"
}
# enums of one's own, flags, numbers or words for kinds
look 1 '^ *(pub(\([a-z]+\))? )?enum |: bool,|-> \(bool|-> Result<bool|fn [a-z_]+\(.*-> (u8|&.static str)'
# functions that stand under one name in two places or more
if [ -z "$only" ] || [ "$only" = 2 ]; then
    git grep -hoE '^ *(pub(\([a-z]+\))? )?fn [a-z_]+' "$at" -- "$src" | sed -E 's/.*fn //' | sort | uniq -d | while read -r name; do
        git grep -nE "fn $name\b" "$at" -- "$src" | sed "s/^$at:/2 /"
    done
fi
# loops that may count by hand
look 3 '\b(while|loop)\b.*\{$|for [a-z_]+ in \(?[0-9]+\.\.|^ *[a-z_]+ \+= 1;'
# comparisons, copies and conversions by hand
look 4 'is_word\(|copy_from_slice|\.cmp\(|fn [a-z_]+_of\b|fn (as_number|number|name|words|kept|stop_of|raised_tick|widened|with_value|with_three)\b|fn (put|spell)_?(decimal|signed|tick|head|ticks|digits)?\(|^ *struct [A-Za-z]+\([A-Z]'
# a fact in the contracts of three functions or more
if [ -z "$only" ] || [ "$only" = 5 ]; then
    git grep -hoE 'requires( [a-z_]+)? \{.*\}' "$at" -- "$src" | sed -E 's/requires( [a-z_]+)? //' | sort | uniq -c | awk '$1 > 2' | sed 's/^/5 requires/'
    git grep -hE '^ *(requires|ensures)' "$at" -- "$src" \
        | grep -oE 'others \(option_map|vec_len out.old|Ascending index|\b(memory_holds|marks_left|unused|means|meaning|window_means|held_by|order_of|shelf_means|row_under) (self|result)' \
        | sort | uniq -c | awk '$1 > 2' | sed 's/^/5 contracts/'
fi
# arrays with a length beside, and vectors of a struct
look 6 '^ +(pub(\(crate\))? )?[a-z_]+: (\[[A-Za-z0-9]+; [A-Za-z0-9_]+\]|Vec<.*>),'
# switches
look 7 'match \(?(self\.|settings\.|keys|verb|part|text|setting|key)\b.*\{$|if is_word\('
# proofs
if [ -z "$only" ] || [ "$only" = 8 ]; then
    files=$(git ls-tree -r --name-only "$at" crates | grep -E '/proofs/.*\.antt$' | grep -v '/Lib.antt')
    echo "8 proof files $(echo "$files" | grep -c .)"
    echo "8 lines in them $(for f in $files; do git show "$at:$f"; done | wc -l)"
    echo "8 answers $(git grep -hE '^pub .* : goal[.]' "$at" -- ':(glob)crates/*/proofs/**/*.antt' | wc -l)"
fi
