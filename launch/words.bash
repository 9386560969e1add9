# shellcheck shell=bash
# What an answer of the program says, in a line of words for whoever sits at the terminal. The launcher `ice` reads this file and
# calls describe; it gives `program`, and launch/output.bash, by which the answer's last records are known.

: "${program:?}"
# shellcheck source=launch/kinds.bash
. "${BASH_SOURCE[0]%/*}/kinds.bash"

# What launch/numbers has of the fault with a number: the name by which it is asked for here, or what is told of it in words.
fault() {
    local number name text told
    while IFS=$'\t' read -r number name text told; do
        [ "$number" = "$1" ] || continue
        [ -n "$told" ] || told=${text#*: }
        if [ "$2" = name ]; then echo "$name"; else echo "$told"; fi
        return
    done <"${BASH_SOURCE[0]%/*}/numbers"
}

# The test of a journal that failed, in words.
rule() {
    case $1 in
    order) echo "another record belongs here" ;;
    short) if [ "${words[0]}" = audit ]; then echo "the statement ends too early"; else echo "the journal ends too early"; fi ;;
    exchange) echo "the exchange is at fault" ;;
    count) echo "a set has another length than its tree" ;;
    parent) echo "a set has a node without the one above it" ;;
    few) echo "a set has too few children of a choice" ;;
    many) echo "a set has too many children of a choice" ;;
    excess) echo "more of a good is bought than is sold, or not all that is sold of an exact one" ;;
    value) echo "the sets are not worth what their head says" ;;
    near) echo "a change names a good that isn't there, or changes nothing" ;;
    sign) echo "a multiplier below 0 of a good that isn't exact" ;;
    fixed) echo "a branch at a node that isn't there or isn't free" ;;
    above) echo "a bound is above what it has to show" ;;
    alive) echo "the bidder still has a set" ;;
    regret) echo "the regret is another" ;;
    fixing) echo "the bidder that is left out trades" ;;
    prices) echo "a price is above the cap, or the numbers are not in lowest terms" ;;
    violation) echo "the prices fit the bids by another number" ;;
    accuracy) echo "the rows don't show that no prices fit better" ;;
    balance) echo "the rows don't show that no such prices are lower" ;;
    verdict) echo "another verdict is due on the bid above" ;;
    threshold) echo "the cut or the surplus is another" ;;
    payment) echo "another payment is due" ;;
    spent) echo "no gap is stated: the journal stops otherwise, or is whole, or what was found is worth no less than the bound" ;;
    *) echo "the test \`$1\` failed" ;;
    esac
}

# A word as it was typed. What turns the order of characters round counts as printable, so it is spelled here.
typed() {
    local turns=$'\xe2\x80[\x8b-\x8f\xa8-\xae]|\xe2\x81[\xa0-\xaf]|\xd8\x9c|\xef\xbb\xbf'
    if (LC_ALL=C && [[ $1 =~ $turns ]]); then LC_ALL=C printf %q "$1"; else printf %q "$1"; fi
}

# The name of file N of the words.
name_of() {
    case ${words[$1]} in
    /dev/stdin | /dev/fd/0 | /proc/self/fd/0) echo -n "standard input" ;;
    *) typed "${words[$1]}" ;;
    esac
    [ "${words[0]}" != run ] || [ "$1" -lt 2 ] || echo -n " (round $(($1 - 1)))"
}

# Line N of a file that can be read again, or nothing.
line_of() {
    local it=()
    [ ! -f "$1" ] || mapfile -t -s "$(($2 - 1))" -n 1 it 2>/dev/null <"$1"
    printf '%s\n' "${it[0]-}"
}

# The front of a line, with each byte spelled that isn't a printed character.
printed() {
    local LC_ALL=C text=${1:0:60} byte it
    for ((it = 0; it < ${#text}; it++)); do
        byte=${text:it:1}
        if [[ $byte == [[:print:]] ]]; then printf %s "$byte"; else printf '\\x%02x' "$(($(printf %d "'$byte") & 255))"; fi
    done
}

# What stands at a place of a file, cut to a part of a line: a line of it, or a value in JSON where Python 3 is there.
what_stands() {
    local file=$1 number=$2 place=$3 text=
    [ -f "$file" ] || return 0
    if [[ $place =~ ^[0-9]+$ ]]; then
        text=$(line_of "$file" "$place")
        [ -z "$text" ] || printf " \`%s\`" "$(printed "$text")"
    elif command -v python3 >/dev/null; then
        python3 -I "${BASH_SOURCE[0]%/*}/value_at" "$file" "$(fault "$number" name)" "$place" "${words[0]}" 2>/dev/null
    fi
}

# What file N of the words is, and which command reads it, where the command takes no file of its kind there.
other_kind() {
    local kind command=${words[0]}
    kind=$(ice_kind "${words[$1]}")
    [ -n "$kind" ] || return 0
    case " $(ice_takes "$command" "$1") " in *" $kind "*) return 0 ;; esac
    case $command:$kind in
    migrate:session | migrate:regret) echo "it is in version 2 already, and \`ice check\` tests it as it is" ;;
    migrate:assign) echo "it is a journal of kind assign, which has version 1 alone: \`ice check\` tests it as it is" ;;
    *:session | *:regret | *:assign | *:session1 | *:regret1) echo "it is a journal of kind ${kind%1}: \`ice check\` tests it" ;;
    *:statement) echo "it is a statement: \`ice audit\` tests it" ;;
    *:exchange | *:market) echo "it is an exchange: \`ice run\`, \`simulate\`, \`regret\` and \`best\` read it first" ;;
    *:flat) echo "it has flat bids: \`ice xor\` makes an exchange of them first" ;;
    *:round) echo "it has bids of a round: \`ice run\` reads it behind an exchange, and \`ice simulate\` where it has true values" ;;
    *:bid) echo "it is a single bid: \`examples/collect.py\` makes a round file of such" ;;
    *:prices) echo "it has prices: \`ice best\` reads it behind an exchange" ;;
    *:fair) echo "it has fair prices: \`page/ice-page JOURNAL --fair FILE\` shows them, and no command reads them" ;;
    esac
}

refused() {
    local file number place name stands words_of other=
    file=$(field refused 2) number=$(field refused 3) place=$(field refused 4)
    if [ -z "$place" ] || [ -z "${words[$file]:-}" ]; then
        echo "a file is refused: the last line of the output says which, its fault, and where"
        return
    fi
    name=$(name_of "$file")
    stands=$(what_stands "${words[$file]}" "$number" "$place")
    words_of=$(fault "$number" words)
    words_of=${words_of:-refused}
    words_of=${words_of/COMMAND/${words[0]}}
    case $(fault "$number" name):$place in
    json:- | shape:- | shape:bidders.? | shape:bidders.?? | record:1 | kind:-) other=$(other_kind "$file") ;;
    esac
    case $stands in
    *"has flat bids") words_of="\`ice xor\` makes an exchange of them first" ;;
    *) words_of=${other:-$words_of} ;;
    esac
    [ "$place" != - ] || [ -z "$other" ] || stands=
    case $place in
    -) echo "$name is refused: $words_of$stands (number $number)" ;;
    *[!0-9]*) echo "$name is refused: $place$stands: $words_of (number $number)" ;;
    *) echo "$name is refused: line $place$stands: $words_of (number $number)" ;;
    esac
}

unread() {
    local file name why="it can't be read"
    file=$(field unread 2)
    if [ -z "$file" ] || [ -z "${words[$file]:-}" ]; then
        echo "a file could not be read: the last line of the output has its number"
        return
    fi
    name=$(name_of "$file")
    if [ -d "${words[$file]}" ]; then
        why="it is a folder"
    elif [ ! -e "${words[$file]}" ]; then
        why="there is no such file"
    elif [ ! -r "${words[$file]}" ]; then
        why="you may not read it"
    fi
    echo "$name could not be read: $why"
}

# What is wrong about words that the program refuses.
wrong_words() {
    local word count=$((${#words[@]} - 1))
    for word in "${words[@]}"; do
        if command -v iconv >/dev/null && ! printf %s "$word" | iconv -f UTF-8 -t UTF-8 >/dev/null 2>&1; then
            printf 'the word %q is no text in UTF-8\n' "$word"
            return
        fi
    done
    case ${words[0]-} in
    '') echo "there is no command" ;;
    check | regret | migrate | xor | audit | fair | gap) echo "\`${words[0]}\` takes one file, and $count words stand behind it" ;;
    best) echo "\`best\` takes an exchange and prices, and $count words stand behind it" ;;
    simulate) echo "\`simulate\` takes an exchange and true values, and $count words stand behind it" ;;
    run)
        if [ "$count" = 0 ]; then echo "\`run\` takes an exchange, and no file is named"; else echo "\`run\` takes up to 20 round files, and $((count - 1)) are named"; fi
        ;;
    statement) echo "\`statement\` takes a journal and the name of a bidder, and $count words stand behind it" ;;
    replay)
        if [ "$count" != 2 ]; then
            echo "\`replay\` takes a journal and a number, and $count words stand behind it"
        else
            printf "\`replay\` takes a settlement from 0 to 20, with no sign and no leading zero, and not %s\n" "$(typed "${words[2]}")"
        fi
        ;;
    gen)
        if [ "$count" != 1 ]; then
            echo "\`gen\` takes one number, and $count words stand behind it"
        else
            printf "\`gen\` takes a number from 0 to 4294967295, with no sign and no leading zero, and not %s\n" "$(typed "${words[1]}")"
        fi
        ;;
    help | version) echo "there is no command ${words[0]}: it is \`--${words[0]}\`" ;;
    *) echo "there is no command $(typed "${words[0]}")" ;;
    esac
}

# How a session ended that closed: its round and regret, and which of the files that were named it didn't come to.
closed() {
    local settle regret surplus it beyond=()
    settle=$(field settle 2) regret=$(field regret 2) surplus=$(field threshold 3)
    if [ -z "$settle" ] || [ -z "$regret" ]; then
        echo "closed"
        return
    fi
    [ "${words[0]}" != run ] || beyond=("${words[@]:settle+2}")
    echo "closed after round $settle: regret $regret, surplus $surplus$(totals)${beyond[0]:+; not read:$(for it in "${beyond[@]}"; do echo -n " $(typed "$it")"; done)}"
}

opened() {
    local round=$((${#words[@]} - 2)) regret
    regret=$(field regret 2)
    echo "open after round $round${regret:+, regret $regret}: wants round $((round + 1))$(totals)"
}

# How much more than a value may be possible, in tenths of a per cent rounded up; nothing where that says nothing.
gap() {
    local tenths
    [ "$1" -gt 0 ] || return 0
    tenths=$(((1000 * ($2 - $1) + $1 - 1) / $1))
    printf ', a gap of %d.%d %%' "$((tenths / 10))" "$((tenths % 10))"
}

# What stands where a search spent its branches, as the journal states it.
spent() {
    local least most found regret
    least=$(field spent 2) most=$(field spent 3) regret=$(field regret 2)
    found="is worth $least, and nothing is worth more than $most"
    case $(field spent_at 2) in
    '') found= ;;
    final) found="what was found $found$(gap "$least" "$most")" ;;
    rival) found="the final trade is worth $(field final 2), and none is worth more; its regret isn't known: the rival that was found $found" ;;
    provisional) found="the final trade and its regret $regret stand; the provisional trade that was found $found, in hundredths" ;;
    without) found="the final trade and its regret $regret stand, and payments aren't known: what was found without bidder $(field spent_at 3) $found" ;;
    esac
    echo "the branches of the settings are used up${found:+: $found; \`ice gap\` tests it}"
}

# Asks the program's `gap`, where `check` passed a journal up to a search that spent its branches, and keeps its answer in
# `gap_said`. It runs as the program itself does, so that a signal ends it too.
ask_gap() {
    local checked=$status
    gap_said=
    [ "${words[0]-}:$status:$(field no 3)" = check:3:closed ] && [[ $(line_of "${words[1]}" "$(field no 2)") = "spent "* ]] || return 0
    coproc ASKED { read -r && echo "$REPLY"; }
    exec 7>&"${ASKED[1]}" 4<&"${ASKED[0]}"
    eval "exec ${ASKED[1]}>&- ${ASKED[0]}<&-"
    run_program "$program" gap "${words[1]}" >&7 2>/dev/null
    exec 7>&-
    read -r gap_said <&4
    exec 4<&-
    # shellcheck disable=SC2034 # the launcher ends with it
    status=$checked
}

# What a journal that isn't closed came to, by its stop's record and its last line.
stopped() {
    local rest=() told=''
    [ ! -f "${words[1]}" ] || mapfile -t -s "$(($1 - 1))" rest 2>/dev/null <"${words[1]}"
    [ "${#rest[@]}" = 0 ] || told=", and ends with \`$(printed "${rest[-1]}")\`"
    case ${words[0]}:${rest[0]-}:$gap_said in
    "check:spent "*:"gap "*) told="$told; the gap is checked: \`$gap_said\`" ;;
    "check:spent "*:"no "*) told="$told; the gap is not what the journal states: \`ice gap\` says \`$gap_said\`" ;;
    *:"spent "*) told="$told; the gap isn't checked: \`ice gap\` tests it" ;;
    esac
    echo "right as far as it goes, to line $1: it closes nothing$told"
}

# What a session came to beside that: its total, the branches that its logs have, and the time. It is told where the answer goes to
# a terminal or, by -o, to a file.
totals() {
    local total limit branches
    : "${started:?}"
    [ -n "$into$shown$draws" ] || return 0
    total=$(field final 2) limit=$(field settings 7) branches=$(field seen 7)
    echo "${total:+, total $total}${limit:+, ${branches:-0} of $limit branches}, $((SECONDS - started)) s"
}

# The line of words for what the program answered: nothing where its own output says it all.
describe() {
    local line test other
    case $status in
    0)
        case ${words[0]} in
        run | simulate) closed ;;
        regret) [ -z "$into$shown$draws" ] || echo "regret $(field regret 2)$(totals)" ;;
        esac
        ;;
    1) wrong_words ;;
    2) refused ;;
    3)
        line=$(field no 2) test=$(field no 3)
        if [ -z "$test" ]; then
            echo "no: the answer has the line of the first test that failed, and its name"
        elif [ "$test" = closed ]; then
            echo "$(name_of 1) is $(stopped "$line")"
        elif [ "$line" = 1 ] && other=$(other_kind 1) && [ -n "$other" ]; then
            echo "$(name_of 1), line 1: $other"
        elif [ "${words[0]}:$test" = audit:order ] && [ -f "${words[1]}" ] && [ "$(line_of "${words[1]}" "$line")" = "end open" ]; then
            echo "$(name_of 1) is right as far as it goes, to line $line: it is a statement of a session that is open"
        else
            echo "$(name_of 1), line $line: $(rule "$test")"
        fi
        ;;
    4) echo "$(spent)$(totals)" ;;
    5)
        if [ "${words[0]}" = fair ]; then
            echo "the search for fair prices came to a limit: none are told"
        else
            echo "the pricing came to a limit: no prices are offered$(totals)"
        fi
        ;;
    6) unread ;;
    7) echo "standard output failed: what was written is a front of the answer, or nothing" ;;
    8) echo "want of memory: free some, and run it again" ;;
    9) opened ;;
    esac
}
