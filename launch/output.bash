# shellcheck shell=bash
# Where the program's standard output goes, and what is shown meanwhile. The launchers read this file behind launch/ending.bash.
# They call take_options, open_output, run_on_output and close_output, and ask `said` and field what the answer says.
#
# - With -o FILE the answer is written beside that file and takes its name when it is whole.
# - Where standard output is a terminal the program writes into a file too, of which whole lines are shown as they come.
# - Where it is a file, the program writes into it, and it is read back from there.
# - Where it is anything else, as a pipe, nothing is known but the words and the status.
#
# Where standard error is a terminal, and nothing forbids it, a line there is written over: where the session stands, and for
# how many seconds. The answer is read by the shell itself, so that the words stand where there is nothing but bash.

# `said` has the last record of each kind that tells what the answer is, or how far a session came, by the kind's name. Beside
# these it has `seen` with the numbers that the next records go on from, `seeks` with what a search is made for next, and
# `last_line`.
declare -A said=()

# Sets `words`, the program's words, `into`, the file of -o, and `quiet`, of the words given. Behind `--` no word is an option.
take_options() {
    words=() into='' quiet=''
    while [ $# -gt 0 ]; do
        case $1 in
        -o)
            [ $# -gt 1 ] && [ -n "$2" ] || return 1
            into=$2
            shift
            ;;
        --quiet) quiet=yes ;;
        --)
            words+=("${@:2}")
            return
            ;;
        *) words+=("$1") ;;
        esac
        shift
    done
}

# Field N of the last record of a name, or nothing.
field() {
    local parts
    read -ra parts <<<"${said[$1]-}"
    printf '%s\n' "${parts[$2 - 1]-}"
}

# Sets `seeks` to what a search is made for, behind the record `last` whose number is `number`.
find_seeks() {
    case $last in
    final) seeks=rival ;;
    without) seeks="without $((number + 1))" ;;
    regret) if [ "$number" -le "$close_regret" ] || [ "$settled" = "$rounds" ]; then seeks="without 0"; else seeks=provisional; fi ;;
    provisional) seeks=prices ;;
    *) seeks=final ;;
    esac
}

# Reckons lines into `said`.
reckon() {
    local line name rest last=- number=0 close_regret=0 rounds=0 settled=0 branches=0 bidders=0 seeks
    [ -z "${said[seen]-}" ] || read -r _ last number close_regret rounds settled branches bidders <<<"${said[seen]}"
    for line in "$@"; do
        case $line in
        "branch "*) branches=$((branches + 1)) ;;
        "bidder "*) bidders=$((bidders + 1)) ;;
        "settings "* | "settle "* | "final "* | "rival "* | "regret "* | "provisional "* | "prices "* | "balance "* | "without "* | "spent "* | "threshold "* | "no "* | "refused "* | "unread "*)
            line=${line:0:400}
            read -r name rest <<<"$line"
            case $name in
            settings) read -r _ close_regret _ _ rounds _ <<<"$rest" ;;
            settle) settled=$rest ;;
            spent)
                find_seeks
                said[spent_at]="spent_at $seeks"
                ;;
            esac
            said[$name]="$name $rest" last=$name number=${rest%% *}
            ;;
        esac
    done
    [ $# = 0 ] || said[last_line]="last_line ${line:0:400}"
    find_seeks
    said[seeks]="seeks $seeks"
    said[seen]="seen $last $number $close_regret $rounds $settled $branches $bidders"
}

# Opens descriptor 9 on the file that is standard output, where the program goes on writing. Where that can't be known the status
# is 1.
open_back() {
    local name value begin=0
    {
        while read -r name value; do
            case $name in
            pos:) begin=$value ;;
            flags:) [ $((8#$value & 8#2000)) = 0 ] || begin=$(stat -Lc %s /dev/fd/8) || return 1 ;;
            esac
        done <"/proc/$$/fdinfo/8" && exec 9</dev/fd/8
    } 2>/dev/null || return 1
    [ "$begin" = 0 ] || dd bs=1 skip="$begin" count=0 <&9 2>/dev/null || LC_ALL=C read -r -N "$begin" <&9
}

# Reckons what has come since, whole lines of it alone or all, and shows it where it is to be shown.
take_new() {
    local lines
    while mapfile -n 4096 -u 9 lines && [ "${#lines[@]}" -gt 0 ]; do
        lines[0]=$part${lines[0]} part=''
        if [[ ${lines[-1]} != *$'\n' ]]; then
            part=${lines[-1]}
            unset 'lines[-1]'
        fi
        [ "${#lines[@]}" = 0 ] || show "${lines[@]}"
    done
    if [ -n "$part" ] && [ "$1" = all ]; then
        show "$part"
        part=''
    fi
}
show() {
    if [ -n "$shown" ]; then
        wipe
        printf '%s' "$@" >&6 || fails=yes
    fi
    reckon "${@%$'\n'}"
}

# Where the session stands, in a line.
standing() {
    local settle seeks limit last='' branches='' bidders='' line=''
    [ -z "${said[seen]-}" ] || read -r _ last _ _ _ _ branches bidders <<<"${said[seen]}"
    settle=$(field settle 2) limit=$(field settings 7) seeks=${said[seeks]-}
    seeks=${seeks#seeks }
    case $seeks:$last in
    without*) seeks="$seeks of $bidders bidders" ;;
    *:prices) seeks=prices ;;
    esac
    [ -z "$settle" ] || line="settlement $settle, "
    [ -z "$limit" ] || line="$line$seeks, $branches of $limit branches, "
    echo "${words[0]-}: $line$((SECONDS - started)) s"
}

# Writes the line over, and takes it away. It is cut to the width of the terminal.
draw() {
    local text wide
    text="ice: $(standing)"
    wide=$(stty size <&2 2>/dev/null) && wide=${wide#* } && [ "$wide" -gt 9 ] || wide=80
    text=${text:0:$((wide - 1))}
    printf '\r%-*s' "$drawn" "$text" >&2
    drawn=${#text}
}
wipe() {
    [ "$drawn" = 0 ] || printf '\r%*s\r' "$drawn" '' >&2
    drawn=0
}

# Follows what the program writes until a line comes on standard input, or its end, and then prints what was said.
follow() {
    local drawn=0 pause=1 told LC_ALL=C
    trap '' HUP INT TERM
    [ -z "$shown" ] || pause=0.2
    while :; do
        read -r -t "$pause" _
        told=$?
        [ "$told" -gt 128 ] || break
        take_new whole
        [ -z "$draws" ] || [ "$((SECONDS - started))" -lt 1 ] || draw
    done
    take_new all
    wipe
    [ -z "$fails" ] || said[fails]="fails yes"
    printf '%s\n' "${said[@]}"
    # the launcher was killed outright
    [ "$told" = 0 ] || [ -z "$beside" ] || rm -f "$beside"
}

# Opens descriptor 8 for the program, and 9 to read what it writes there. Where something is shown meanwhile, it is followed. The
# status is 1 where FILE can't be written.
open_output() {
    shown='' beside='' draws='' redirected='' readable='' follower='' part='' fails='' drawn=0 started=$SECONDS
    [ -n "$quiet" ] || [ ! -t 2 ] || draws=yes
    if [ -n "$into" ] && [ -e "$into" ] && [ ! -f "$into" ]; then
        { exec 8>"$into"; } 2>/dev/null || return 1
        redirected=yes
        return 0
    elif [ -n "$into" ]; then
        target=$(readlink -f -- "$into" 2>/dev/null) && beside=$(mktemp "${target%/*}/.ice-XXXXXX" 2>/dev/null) || return 1
    elif [ -t 1 ]; then
        beside=$(mktemp 2>/dev/null) || return 0
        shown=yes
    elif [ -f /dev/fd/1 ]; then
        exec 8>&1
        ! open_back || readable=yes
    else
        return 0
    fi
    redirected=yes
    if [ -n "$beside" ]; then
        leftover+=("$beside")
        { exec 8>"$beside" && exec 9<"$beside"; } 2>/dev/null || return 1
        readable=yes
    fi
    [ -n "$readable" ] && [ -n "$draws$shown" ] || return 0
    { exec 6>&1; } 2>/dev/null || exec 6>/dev/null
    coproc FOLLOWED { exec 8>&-; follow; }
    follower=$FOLLOWED_PID
    exec 7>&"${FOLLOWED[1]}" 4<&"${FOLLOWED[0]}" 6>&- 9<&-
    eval "exec ${FOLLOWED[1]}>&- ${FOLLOWED[0]}<&-"
}

# Runs the program with its words, and sets `status`.
run_on_output() {
    if [ -n "$redirected" ]; then run_program "$@" >&8 8>&-; else run_program "$@"; fi
}

# Takes the line away, and what was written beside, before the launcher ends at a signal.
leave_output() {
    [ -z "${follower-}" ] || { exec 7>&- && while read -r; do :; done <&4; } 2>/dev/null
    [ -z "${beside-}" ] || rm -f "$beside"
}

# Ends what open_output began, and fills `said` where words are wanted of it. With -o it puts the answer at its place where
# `status` says that it is whole, and else prints the answer's last line, which says why.
close_output() {
    local line
    [ -z "$redirected" ] || exec 8>&-
    if [ -n "$follower" ]; then
        echo ended >&7
        exec 7>&-
        while IFS= read -r line; do
            [ -z "$line" ] || said[${line%% *}]=$line
        done <&4
        exec 4<&-
        wait "$follower" 2>/dev/null
        follower=
        [ -z "${said[fails]-}" ] || [ "$status" -ge 128 ] || status=7
    elif [ -n "$readable" ]; then
        case ${words[0]-}:$status in
        run:0 | simulate:0 | regret:0 | *:[1-9]) take_new all ;;
        esac
        exec 9<&-
    fi
    if [ -n "$into" ] && [ -n "$beside" ]; then
        case $status in
        0 | 4 | 5 | 9)
            if [ -e "$target" ]; then chmod --reference="$target" "$beside"; else chmod "$(printf %o $((0666 & ~8#$(umask))))" "$beside"; fi
            mv -fT -- "$beside" "$target" 2>/dev/null || status=7
            ;;
        1 | 2 | 3 | 6) [ -z "${said[last_line]-}" ] || printf '%s\n' "${said[last_line]#last_line }" ;;
        esac
    fi
    [ -z "$beside" ] || rm -f "$beside"
}
