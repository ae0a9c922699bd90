# Completes the words of `ratmanganese`, `verify-real` and `fetch-repository` in bash. bench/words writes this file by scripts/words.json.
_ratmanganese() {
    local word=${COMP_WORDS[COMP_CWORD]} before=${COMP_WORDS[COMP_CWORD - 1]} host=${COMP_WORDS[0]##*/} name='' names='' paths=''
    COMPREPLY=()
    # (bash parts a word at `=`)
    if [ "$word" = = ]; then
        name=$before word=
    elif [ "$before" = = ]; then
        name=${COMP_WORDS[COMP_CWORD - 2]}
    fi
    case $name in
    --repository | --store | --folder | --tiles) paths=-d ;;
    --root | --bundle | --bundles | --artifact | --archive | --trusted-root | --statement | --out | --first | --second | --policy | --key | --provider | --refused) paths=-f ;;
    --*) return ;;
    *)
        case $host:$COMP_CWORD:${COMP_WORDS[1]} in
        ratmanganese:1:*) names="trust verify questions gate gate-questions archive check download download-questions audit generate explain build install lib version help" ;;
        ratmanganese:2:trust) names="add list show remove" ;;
        ratmanganese:*:trust) names="--root= --url= --yes" ;;
        ratmanganese:*:verify) if [[ $word == -* ]]; then names="--trust= --root= --repository= --store= --archive= --trusted-root= --bundle= --bundles= --digest= --policy= --key= --identity= --identity-like= --issuer= --claim= --predicate= --github= --workflow= --tag-like= --print-policy --max-age= --offline --now= --statement= --details --json --artifact= --provider="; else paths=-f; fi ;;
        ratmanganese:*:questions) names="--root= --repository= --store= --bundle= --artifact= --policy= --refused= --digest= --archive= --trusted-root= --now=" ;;
        ratmanganese:*:gate) names="--root= --repository= --store= --folder= --policy= --provider= --archive= --trusted-root= --now=" ;;
        ratmanganese:*:gate-questions) names="--root= --repository= --store= --folder= --policy= --refused= --archive= --trusted-root= --now=" ;;
        ratmanganese:*:archive) names="--root= --repository= --store= --provider= --now=" ;;
        ratmanganese:*:check) names="--root= --archive= --provider= --least= --trusted-root= --now=" ;;
        ratmanganese:*:download) names="--root= --repository= --store= --provider= --target= --out= --now=" ;;
        ratmanganese:*:download-questions) names="--root= --repository= --store= --refused= --target= --out= --now=" ;;
        ratmanganese:*:audit) names="--key= --provider= --first= --second= --tiles=" ;;
        ratmanganese:*:generate) names="--number= --count=" ;;
        ratmanganese:2:explain) names="tuf verify bundles statement archive audit gate status" ;;
        ratmanganese:*:install) paths=-d ;;
        ratmanganese:*:lib) paths=-d ;;
        verify-real:1:*) names="--root= --repository= --store= --bundle= --artifact= --policy= --bundles= --digest= --archive= --trusted-root= --now= --statement= --details --json --help gate archive check download audit" ;;
        verify-real:*:gate) names="--root= --repository= --store= --folder= --policy= --archive= --trusted-root= --now= --json --help" ;;
        verify-real:*:archive) names="--root= --repository= --store= --now= --help" ;;
        verify-real:*:check) names="--root= --archive= --least= --trusted-root= --now= --help" ;;
        verify-real:*:download) names="--root= --repository= --store= --target= --out= --now= --help" ;;
        verify-real:*:audit) names="--key= --first= --second= --tiles= --help" ;;
        verify-real:*) names="--root= --repository= --store= --bundle= --artifact= --policy= --bundles= --digest= --archive= --trusted-root= --now= --statement= --details --json --help" ;;
        fetch-repository:*) if [[ $word == -* ]]; then names="--root= --seconds= --help"; else paths=-d; fi ;;
        esac
        ;;
    esac
    if [ -n "$paths" ]; then
        mapfile -t COMPREPLY < <(compgen "$paths" -- "$word")
        compopt -o filenames
        return
    fi
    mapfile -t COMPREPLY < <(compgen -W "$names" -- "$word")
    [[ ${COMPREPLY[0]-} != *= ]] || compopt -o nospace
}
complete -F _ratmanganese ratmanganese verify-real fetch-repository
