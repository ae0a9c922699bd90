# Read by ./verify-real: how the bundles of `--bundles` are asked for, a line each, and what their refusals hold.
# shellcheck shell=sh disable=SC2034,SC2154

# Puts each bundle of the lines in a file of its own, and tells the artifact's digests, so that it is read once for all of them.
prepare_lines() {
    : >"$between/bundle" || exit 70
    mkdir "$between/lines" || exit 70
    unsplit=
    "$top/scripts/split_bundles" lines "$bundles" "$between/lines" >"$between/numbers" 2>"$between/why" || unsplit=1
    [ ! -s "$between/why" ] || say "bundles $bundles: nothing is asked of them: $(tail -n 1 "$between/why")"
    : >"$between/digests" || exit 70
    # (where the artifact can't be read, or a word can't be right, its path is asked with as it is)
    if [ -n "$artifact" ] && [ -z "$faulty" ]; then
        "$top/scripts/split_bundles" digests "$artifact" >"$between/digests" 2>/dev/null || : >"$between/digests"
    fi
}

# Writes the questions of a verification of each bundle of the lines, and each question once: of an empty bundle first, which asks
# for the documents and tells whether the words and the other inputs are right. What isn't asked of a line can only refuse it.
write_questions_of_lines() {
    if [ -s "$between/digests" ]; then
        for word; do
            shift
            case $word in --artifact=*) ;; *) set -- "$@" "$word" ;; esac
        done
        while IFS= read -r word; do set -- "$@" "$word"; done <"$between/digests"
    fi
    "$questions" questions --refused="$between/refused" --bundle="$between/bundle" "$@" >"$between/each" || return
    [ -z "$unsplit" ] || return 3
    length=$(($(wc -c <"$between/each")))
    while IFS= read -r number; do
        "$questions" questions --refused="$between/refused" --bundle="$between/lines/$number" "$@" >"$between/line" || {
            say "nothing is asked of the bundle in line $number: $(head -n 1 "$between/line")"
            continue
        }
        length=$((length + $(wc -c <"$between/line")))
        if [ $length -gt 268435456 ]; then
            say "nothing is asked from line $number on: the questions are too many"
            break
        fi
        cat "$between/line" >>"$between/each" || exit 70
    done <"$between/numbers"
    LC_ALL=C awk '!seen[$0]++ { taken += length($0) + 1; if (taken > 16777216) exit 3; print }' "$between/each" >"$between/questions" || {
        [ $? = 3 ] || exit 70
        [ -n "$filled" ] || say "the questions of these bundles don't fit into the 16777216 bytes of a provider file: those that don't aren't asked, and a bundle that asks one is refused; verify the lines in parts"
        filled=1
    }
}

# Says so of the bundles that are refused, ten at most; of a chain that isn't trusted once.
tell_details_of_lines() {
    told=0 front=
    cp "$between/bundle" "$between/refused_bundle" || return 0
    while IFS= read -r line; do
        case $line in
        "bundle "*)
            number=${line#bundle }
            front="bundle $number: " told=$((told + 1))
            [ $told -le 10 ] || break
            cp "$between/lines/$number" "$between/refused_bundle" || return 0
            ;;
        "refused tuf "* | "refused verify "*) tell_details_of "$front" "$line" "$@" ;;
        esac
    done <"$between/said"
}
