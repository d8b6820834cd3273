# shellcheck shell=bash
# What ./run and ./build know of the program: where it is, what it is made of, and whether it is of these sources.
# Both set `top`, the top of the clone, before they read this file.

# shellcheck disable=SC2154
folder=$top/crates/sd_main
program=$folder/out/sd_main
stamp=$folder/out/sd_main.sources

# The program's crate and all below it, a name a line, each behind those that it stands on.
crates_of_program() {
    awk '
        function visit(name, parts, count, at) {
            if (name in seen || !(name in needs)) return
            seen[name] = 1
            count = split(needs[name], parts, " ")
            for (at = 1; at <= count; at++) visit(parts[at])
            print name
        }
        { sub(/#.*/, "") }
        (colon = index($0, ":")) {
            split(substr($0, 1, colon - 1), head, " ")
            needs[head[1]] = substr($0, colon + 1)
        }
        END { visit("sd_main") }
    ' "$top/crates.txt"
}

# The folders of the sources of these crates, and the list of crates, from the top of the clone on.
sources_of_program() {
    local name part
    echo crates.txt
    for name in $(crates_of_program); do
        for part in src specs proofs; do
            [ ! -d "$top/crates/$name/$part" ] || echo "crates/$name/$part"
        done
    done
}

# A sum of the sources and of what each crate stands on; then the program's size and the moment of its making.
sum_of_sources() (
    cd "$top" || exit 1
    mapfile -t paths < <(sources_of_program)
    find "${paths[@]}" -type f -print0 | sort -z | xargs -0 sha256sum | sha256sum
)
state_of_program() {
    sum_of_sources
    stat -c '%s %y' "$program"
}

# Whether the program was proved from the sources that are there now. ./build leaves a stamp that says from which. `rt ci`
# leaves none, but it removes what was built before, and its lock tells when it began: nothing may have changed since.
is_current() {
    [ -x "$program" ] || return 1
    if [ -f "$stamp" ]; then
        [ "$(cat "$stamp")" = "$(state_of_program)" ]
    else
        is_of_last_gate
    fi
}
is_of_last_gate() (
    lock=$top/.git/rt-ci.lock
    cd "$top" || exit 1
    { [ -f "$lock" ] && [ "$program" -nt "$lock" ]; } || exit 1
    mapfile -t paths < <(sources_of_program)
    [ -z "$(find "${paths[@]}" -cnewer "$lock" -print -quit)" ]
)
