#!/bin/sh
# Runs the program with the words given. Where it isn't built, or is older than its source, it is built first, crate by crate:
# each crate is proved before it is built. Standard error tells what is being done meanwhile.
top=$(cd "$(dirname "$0")" && pwd) || exit
program=$top/crates/kts/out/kts

say() {
    printf 'kts: %s\n' "$1" >&2
}

fail() {
    printf '%s\n' "$log" >&2
    say "$1 could not be built"
    exit 70
}

# The libraries that the program stands on, the lowest first, as crates.txt lists them.
libraries() {
    awk -F: '{ sub(/#.*/, "") } NF > 1 { name[++n] = $1; below[n] = $2 }
        END {
            needed["kts"]
            for (i = n; i; i--) if (name[i] in needed) { split(below[i], each, " "); for (k in each) needed[each[k]] }
            for (i = 1; i <= n; i++) if (name[i] in needed && name[i] != "kts") print name[i]
        }' "$top/crates.txt"
}

if [ ! -x "$program" ] || find "$top/crates.txt" "$top"/crates/*/src -type f -newer "$program" | grep -q .; then
    say "the program is built first; from nothing this takes a quarter to half an hour"
    for name in $(libraries); do
        say "proving and building $name"
        log=$(cd "$top/crates/$name" && rt lib 2>&1) || fail "$name"
    done
    say "proving and building kts"
    # With no words the program prints how it is used: so it was built.
    log=$(cd "$top/crates/kts" && rt run 2>&1)
    printf '%s\n' "$log" | grep -q '^usage: kts ' || fail kts
    touch "$program"
fi
exec "$program" "$@"
