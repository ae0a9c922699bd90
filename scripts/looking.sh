# Read by ./verify-real: what can't be right of the files and folders that its words name, and of the store behind a run. The
# programs judge them by themselves; what is said here stands on standard error, and changes no answer.
# shellcheck shell=sh disable=SC2034,SC2154

# Says why a file can't be put in its place: the word that names it, and its path.
look_at_out() {
    [ -n "$2" ] || return 0
    above=$(dirname -- "$2")
    while [ ! -e "$above" ]; do above=$(dirname -- "$above"); done
    if [ -d "$2" ]; then
        say "$1 $2: it is a folder"
    elif [ ! -d "$above" ]; then
        say "$1 $2: $above is no folder"
    elif [ ! -w "$above" ]; then
        say "$1 $2: Permission denied in $above"
    fi
}

# Says why a file can't be read: what it is called, its path, and the greatest length that is read.
look_at_file() {
    if [ -z "$2" ]; then
        return
    elif [ ! -e "$2" ]; then
        if [ -L "$2" ]; then why="a link to a file that isn't there"; else why="No such file"; fi
    elif [ -d "$2" ]; then
        why="it is a folder"
    elif [ ! -r "$2" ]; then
        why="Permission denied"
    elif [ ! -f "$2" ]; then
        why="no regular file; it is read more than once, and has to give the same bytes each time"
    elif [ "$(($(wc -c <"$2")))" -gt "$3" ]; then
        why="it is longer than $3 bytes"
    else
        return
    fi
    say "$1 $2: $why"
}

# Says that a file hasn't what each of its kind has: which file was taken for it, a refusal doesn't tell.
look_at_kind() {
    [ -f "$2" ] && [ -r "$2" ] || return
    LC_ALL=C grep -q -e "$3" -- "$2" || say "$1 $2: $4 doesn't stand in it, as it does in each $5"
}

# Says why a folder of documents can't be one.
look_at_repository() {
    if [ -z "$repository" ]; then
        return
    elif [ ! -e "$repository" ]; then
        say "repository $repository: No such folder"
    elif [ ! -d "$repository" ]; then
        say "repository $repository: it is no folder"
    elif [ ! -r "$repository/timestamp.json" ]; then
        say "repository $repository: there is no timestamp.json in it that can be read"
    fi
}

# Says what the folder of artifacts holds, and what in it makes that it can't be judged.
look_at_folder() {
    [ -n "$folder" ] || return
    "$top/scripts/look_at_folder" "$folder" | while IFS= read -r line; do
        say "folder $folder: $line"
    done
}

# Says that the store can't be written, which the program passes over. It is tried with a file that is made in
# it, or where it isn't there yet a folder beside it, and at once removed.
look_at_store() {
    [ -n "$store" ] || return
    why=
    if [ -e "$store" ] && [ ! -d "$store" ]; then
        why="it is no folder"
    elif [ -d "$store" ]; then
        if tried=$(LC_ALL=C mktemp -- "$store/.tried.XXXXXX" 2>&1); then rm -f "$tried"; else why=${tried##*: }; fi
    else
        above=$store
        while [ ! -e "$above" ]; do above=$(dirname -- "$above"); done
        if [ ! -d "$above" ]; then
            why="$above is no folder"
        elif tried=$(LC_ALL=C mktemp -d -- "$above/.tried.XXXXXX" 2>&1); then
            rmdir "$tried"
        else
            why=${tried##*: }
        fi
    fi
    unkept=$why
    [ -z "$why" ] || say "store $store can't be written ($why): nothing of this run is kept, so that a later run notices no older state of the repository"
}

# Says after an acceptance that the store hasn't the timestamp that was used: the program passes over a write that fails, as
# on a full disk, where a file that holds nothing can still be made.
look_at_kept() {
    case $command in verify | gate | archive | download) ;; *) return ;; esac
    [ -n "$store" ] && [ -z "$unkept" ] || return
    for name in root.json snapshot.json targets.json; do
        [ -s "$store/$name" ] || unkept="it lacks $name"
    done
    cmp -s -- "$repository/timestamp.json" "$store/timestamp.json" || unkept="its timestamp.json isn't the repository's"
    [ -z "$unkept" ] || say "store $store wasn't written whole ($unkept): see that there is room; else a later run may notice no older state of the repository"
}
