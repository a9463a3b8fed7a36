#!/bin/sh
# The crates of the repository that one stands on, itself included, a line each.
#
# usage: below.sh CRATE
awk -F ': *' -v top="$1" '
    /^[a-z]/ { stands[$1] = $2 }
    END {
        found[last = 1] = top
        for (i = 1; i <= last; i++) {
            if (seen[found[i]]++ || !(found[i] in stands)) continue
            print found[i]
            count = split(stands[found[i]], names, " ")
            for (j = 1; j <= count; j++) found[++last] = names[j]
        }
    }' "$(dirname "$0")/../crates.txt"
