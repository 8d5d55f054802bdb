#!/usr/bin/env bash
# Runs the program `wl` with the words that it is given. Where none is built, or a source is newer, it proves and
# builds the program first, crate by crate, and says on standard error which crate it is at.
set -u
top=$(cd "$(dirname "$(readlink -f "${BASH_SOURCE[0]}")")" && pwd)
program=$top/crates/wl_cmd/out/wl_cmd

is_stale() {
    [ ! -x "$program" ] || [ -n "$(find "$top/crates.txt" "$top/crates" -name out -prune -o -type f \
        \( -name '*.rt' -o -name '*.antt' -o -name crates.txt \) -newer "$program" -print -quit)" ]
}

# The libraries that a crate stands on, the lowest first. In crates.txt each stands before those that stand on it.
below() {
    awk -v crate="$1" '
        /^wl_/ { name = $1; sub(/:$/, "", name); order[++count] = name; for (i = 2; i <= NF; i++) deps[name] = deps[name] " " $i }
        function take(name, parts, n, i) {
            if (name in wanted) return
            wanted[name]
            n = split(deps[name], parts, " ")
            for (i = 1; i <= n; i++) take(parts[i])
        }
        END { take(crate); for (i = 1; i <= count; i++) if (order[i] in wanted && order[i] != crate) print order[i] }
    ' "$top/crates.txt"
}

# Runs a command of the kit in a crate's folder. Where it fails, what it said goes to standard error.
in_crate() {
    local log status
    log=$(mktemp)
    (cd "$top/crates/$1" && shift && exec "$@") </dev/null >"$log" 2>&1
    status=$?
    [ "$status" -eq 0 ] || cat "$log" >&2
    rm -f "$log"
    return "$status"
}

build() {
    local names count number=0
    mapfile -t names < <(below wl_cmd)
    count=$((${#names[@]} + 1))
    for name in "${names[@]}"; do
        echo "wl: proving $name ($((++number)) of $count)" >&2
        in_crate "$name" rt lib || return
    done
    echo "wl: proving wl_cmd ($count of $count)" >&2
    in_crate wl_cmd rt run && touch "$program"
}

if is_stale; then
    # One at a time; the next finds the program built.
    mkdir -p "$(dirname "$program")"
    exec 9>"$(dirname "$program")/building"
    if command -v flock >/dev/null; then flock 9; fi
    if is_stale; then build || exit 70; fi
    exec 9>&-
fi
exec "$program" "$@"
