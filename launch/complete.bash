# shellcheck shell=bash
# Completion for bash of `ice` and `ice-unproved`: commands, files of the kind that a command takes, names of bidders and settlements
# out of a journal. Read it in a shell: `. launch/complete.bash`. Where no file of the kind is there, all are offered.

# shellcheck source=launch/kinds.bash
. "${BASH_SOURCE[0]%/*}/kinds.bash"

_ice_files() {
    local name kind found=() folders=()
    while IFS= read -r name; do
        if [ -d "$name" ]; then
            folders+=("$name")
        else
            kind=$(ice_kind "$name")
            [ -z "$kind" ] || [[ " $2 " != *" $kind "* ]] || found+=("$name")
        fi
    done < <(compgen -f -- "$1")
    compopt -o filenames 2>/dev/null
    if [ "${#found[@]}" -gt 0 ]; then COMPREPLY=("${found[@]}" "${folders[@]}"); else mapfile -t COMPREPLY < <(compgen -f -- "$1"); fi
}

# What stands behind a word in the records of a journal, up to the first record that begins with another word. Bytes are read in pieces
# of 32,768, and up to the first line that is longer than a record's, so that no file takes long or much memory.
_ice_behind() {
    local piece text rest='' lines=() line LC_ALL=C
    [ -f "$1" ] && [ -r "$1" ] || return 0
    while IFS= read -r -N 32768 piece || [ -n "$piece" ]; do
        text=$rest$piece
        mapfile -t lines <<<"$text" || return 0
        rest=${lines[-1]}
        unset 'lines[-1]'
        if [[ $text = *"$2 "* || $text = *"$3"* ]]; then
            for line in "${lines[@]}"; do
                [ "${#line}" -le 8192 ] && [[ $line != "$3" && $line != "$3 "* ]] || return 0
                [[ ! $line =~ ^$2\ ([A-Za-z0-9_.-]+)(\ |$) ]] || echo "${BASH_REMATCH[1]}"
            done
        fi
        [ "${#rest}" -le 8192 ] || return 0
    done <"$1" 2>/dev/null
}

_ice() {
    local word=${COMP_WORDS[COMP_CWORD]} words=() it kinds
    COMPREPLY=()
    for ((it = 1; it < COMP_CWORD; it++)); do
        case ${COMP_WORDS[it]} in
        -o) it=$((it + 1)) ;;
        --quiet) ;;
        *) words+=("${COMP_WORDS[it]}") ;;
        esac
    done
    if [ "${COMP_WORDS[COMP_CWORD - 1]}" = -o ]; then
        compopt -o filenames 2>/dev/null
        mapfile -t COMPREPLY < <(compgen -f -- "$word")
    elif [[ $word = -* ]]; then
        mapfile -t COMPREPLY < <(compgen -W "-o --quiet --help --version" -- "$word")
    elif [ "${#words[@]}" = 0 ]; then
        mapfile -t COMPREPLY < <(compgen -W "run simulate check replay statement audit fair gap best regret migrate xor gen" -- "$word")
    else
        case ${words[0]}:${#words[@]} in
        statement:2) mapfile -t COMPREPLY < <(compgen -W "$(_ice_behind "${words[1]}" bidder settle)" -- "$word") ;;
        replay:2) mapfile -t COMPREPLY < <(compgen -W "$(_ice_behind "${words[1]}" settle threshold)" -- "$word") ;;
        *)
            kinds=$(ice_takes "${words[0]}" "${#words[@]}")
            [ -z "$kinds" ] || _ice_files "$word" "$kinds"
            ;;
        esac
    fi
}

complete -F _ice ice ./ice ice-unproved ./ice-unproved
