# shellcheck shell=bash
# What kind of file a file is, by its beginning, and which kinds a command takes. The launcher reads this file for its words. It
# runs nothing but bash itself, and its functions begin with `ice_`, so that a completion of names can read it too.

# The kind of a file: `assign`, `regret` or `session`, with a 1 behind the last two in version 1; `exchange` or `prices` in line
# form; `market`, `flat`, `round` or `bid` in JSON; `statement`, or `fair` prices. Nothing where it is none of these, or no file
# that can be read again.
ice_kind() {
    local text='' LC_ALL=C
    [ -f "$1" ] && [ -r "$1" ] || return 0
    IFS= read -r -N 65536 text 2>/dev/null <"$1"
    case $text in
    "ice 1 assign"$'\n'*) echo assign ;;
    "ice 2 regret"$'\n'*) echo regret ;;
    "ice 1 regret"$'\n'*) echo regret1 ;;
    "ice 2 session"$'\n'*) echo session ;;
    "ice 1 session"$'\n'*) echo session1 ;;
    "ice 1 exchange"$'\n'*) echo exchange ;;
    "ice 1 prices"$'\n'*) echo prices ;;
    "statement "*$'\n'"settings "*) echo statement ;;
    "prices "*$'\n'"accuracy "*) echo fair ;;
    *)
        [[ $text =~ ^[[:space:]]*\{[[:space:]]*\"(bids|bidder|lo|hi|settings|goods|bidders)\"[[:space:]]*: ]] || return 0
        case ${BASH_REMATCH[1]} in
        bids) echo round ;;
        bidder | lo | hi) echo bid ;;
        *)
            case $text in
            *'"tree"'*) echo market ;;
            *'"xor"'* | *'"or"'*) echo flat ;;
            *) echo market ;;
            esac
            ;;
        esac
        ;;
    esac
}

# The kinds that a command takes as word N behind it.
ice_takes() {
    case $1:$2 in
    run:1 | simulate:1 | regret:1 | best:1) echo "market exchange" ;;
    run:* | simulate:2) echo "round" ;;
    best:2) echo "prices" ;;
    xor:1) echo "flat" ;;
    check:1 | gap:1) echo "session regret assign session1 regret1" ;;
    replay:1 | statement:1 | fair:1) echo "session session1" ;;
    migrate:1) echo "session1 regret1" ;;
    audit:1) echo "statement" ;;
    esac
}
