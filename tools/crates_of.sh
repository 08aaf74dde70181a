#!/usr/bin/env bash
# Prints the crates of the repository that a crate is made of, itself first, by crates.txt.
#
#     tools/crates_of.sh NAME
awk -F '[: ]+' -v wanted="$1" '
    /^[a-z]/ { below[$1] = ""; for (i = 2; i <= NF; i++) below[$1] = below[$1] " " $i }
    function visit(name, names, count, i) {
        if (!(name in below) || (name in seen)) return
        seen[name] = 1
        print name
        count = split(below[name], names, " ")
        for (i = 1; i <= count; i++) visit(names[i])
    }
    END { visit(wanted) }
' "$(dirname "$0")/../crates.txt"
