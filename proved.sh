#!/bin/sh
# Read by ./ratmanganese, ./example, ./verify-real and the scripts in examples/ and bench/ that run a proved program. They
# set `top`, the folder of this file, and get the programs' names and places, and whether they are current.
# In a checkout a program lies where it is built. What `./ratmanganese install` made has no crates: there it lies in the
# folder programs. `./ratmanganese build` makes each of these programs, and `install` puts each.
# shellcheck disable=SC2034,SC2154
programs="program_verify program_questions"
# The first verifies, the second writes the questions of a verification.
if [ -d "$top/crates" ]; then
    program=$top/crates/program_verify/out/program_verify
    questions=$top/crates/program_questions/out/program_questions
    me=./ratmanganese
    unbuilt="the proved program isn't built, or a source is newer than it: run \`./ratmanganese build\`, which proves all its crates the first time"
else
    program=$top/programs/program_verify
    questions=$top/programs/program_questions
    me=ratmanganese
    unbuilt="the proved program isn't in $top/programs: install it anew by \`./ratmanganese install\` of a checkout where \`./ratmanganese build\` has run"
fi

# Says a line on standard error, in the name of the script, which sets `who`. What isn't printable ASCII stands there as
# `\x` and two digits for each byte, so that a name fills no line but its own and sends nothing to a terminal.
say() {
    printf '%s' "$who: $*" | LC_ALL=C awk '
        BEGIN { for (i = 1; i < 256; i++) number[sprintf("%c", i)] = i }
        function printed(text,    out, i, c) {
            if (text !~ /[^ -~]/) return text
            for (i = 1; i <= length(text); i++) {
                c = substr(text, i, 1)
                out = out (c ~ /[ -~]/ ? c : sprintf("\\x%02x", number[c]))
            }
            return out
        }
        { line = line (NR > 1 ? "\\x0a" : "") printed($0) }
        END { print line }
    ' >&2
}

# A program's crates, lowest first: those of this repository that its line of crates.txt leads to, and itself. Fails
# where crates.txt has no such line, or a name that no crate can have.
crates() {
    awk -v program="$1" '
        function add(name,    parts, n, i) {
            if (name in seen || !(name in uses)) return
            if (name !~ /^[a-z0-9_]+$/) exit odd = 1
            seen[name]
            n = split(uses[name], parts, " ")
            for (i = 1; i <= n; i++) add(parts[i])
            found = found name "\n"
        }
        { sub(/#.*/, "") }
        /:/ { name = $1; sub(/:.*/, "", name); sub(/^[^:]*:/, ""); uses[name] = $0 }
        END {
            if (!odd) add(program)
            if (odd || found == "") exit 1
            printf "%s", found
        }
    ' "$top/crates.txt"
}

# Copies these parts of these crates to a folder, which then has what a repository of these crates alone has:
# `copy_crates FOLDER PART.. -- CRATE..`.
copy_crates() {
    to=$1 parts=
    shift
    while [ "$1" != -- ]; do
        parts="$parts $1"
        shift
    done
    shift
    mkdir -p "$to/crates" || return
    for crate; do
        mkdir "$to/crates/$crate" || return
        for part in $parts; do
            [ ! -e "$top/crates/$crate/$part" ] || cp -R "$top/crates/$crate/$part" "$to/crates/$crate/$part" || return
        done
    done
    awk -v names="$*" '
        BEGIN { n = split(names, parts, " "); for (i = 1; i <= n; i++) wanted[parts[i]] }
        { line = $0; sub(/#.*/, ""); name = $1; sub(/:.*/, "", name) }
        name in wanted { print line }
    ' "$top/crates.txt" >"$to/crates.txt" || return
    [ ! -e "$top/HANDLES" ] || cp "$top/HANDLES" "$to/HANDLES"
}

# Whether a proved program is there and no source of its crates is newer. It is put there whole, by a renaming.
is_current() (
    if [ ! -d "$top/crates" ]; then
        [ -f "$top/programs/$1" ] && [ -x "$top/programs/$1" ]
        exit
    fi
    [ -x "$top/crates/$1/out/$1" ] && is_newest "$1" "$top/crates/$1/out/$1"
)

# Whether this file, built of a crate, is there and no source of its crates is newer. What can't be found out, such as
# whether a source is newer, counts as no: each path is a word of its own, whatever stands in it.
is_newest() (
    built=$2
    [ -f "$built" ] || exit
    chosen=$(crates "$1") && [ -n "$chosen" ] || exit 1
    set -- "$top/crates.txt"
    for crate in $chosen; do
        set -- "$@" "$top/crates/$crate/src"
        for part in specs proofs; do
            [ ! -e "$top/crates/$crate/$part" ] || set -- "$@" "$top/crates/$crate/$part"
        done
    done
    newer=$(find "$@" -newer "$built" 2>&1) && [ -z "$newer" ]
)

# Ends with status 70 unless each of these programs is current. Nothing is built here: what runs in the
# middle of another's work has to end soon.
need() {
    for wanted; do
        is_current "$wanted" || {
            say "$unbuilt"
            exit 70
        }
    done
}
