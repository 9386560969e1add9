# shellcheck shell=bash
# The texts of `ice --help`, `ice COMMAND --help` and `ice --version`. The launchers read this file; they give `top`, and
# `is_checkout`, which says whether the program is built here or was handed on.

: "${top:?}"

# Prints what it reads, by bash alone.
print() {
    local text
    IFS= read -r -d '' text
    printf '%s' "$text"
}

usage() {
    print <<'TEXT'
usage: ice run EXCHANGE ROUND..     the journal of a session, with up to 20 rounds of bids
       ice simulate EXCHANGE TRUTHS the journal of a session in which proxies bid for true values
       ice check JOURNAL            whether a journal passes every test
       ice replay JOURNAL N         settlement N of a session's journal, after every test of it
       ice statement JOURNAL NAME   what a closed session says to one of its bidders
       ice audit FILE               whether a statement passes every test
       ice fair JOURNAL             prices that come nearest to the payments of a closed session
       ice gap JOURNAL              what is sure of a trade where the branches are used up
       ice best EXCHANGE PRICES     the best set of each bidder at prices
       ice regret EXCHANGE          a journal of the best assignment at lower values, and its regret
       ice migrate JOURNAL          a journal of version 1, of kind regret or session, in version 2
       ice xor FILE                 flat bids, packages with prices, as an exchange in JSON
       ice gen NUMBER               a session of the generated exchange of a number, in ten lines
       ice .. -o FILE, ice .. --quiet
                                    the answer in a file, whole or not at all; no words beside it
       ice COMMAND --help           what a command reads and answers, with two examples
       ice --help | -h | --version  this text, or the version; neither builds anything

status 0  yes, done, or closed     status 6   a file could not be read
       1  words that are none of these    7   standard output failed
       2  a file is refused               8   want of memory
       3  no: a test failed               9   the session is open: it wants bids
       4  the branches are used up       70   there is no program that runs
       5  the pricing came to a limit

TEXT
    ! is_checkout || printf '%s\n\n' "The first run proves and builds the program: ./ice-unproved answers within minutes, with nothing proved."
    echo "What is written, and what to do about it: docs/formats.md, docs/troubleshooting.md."
}

version() {
    local commit kit=''
    if is_checkout; then
        commit=$(git -C "$top" describe --always --dirty --exclude='*' 2>/dev/null) || commit=unknown
    else
        { read -r commit <"$top/COMMIT"; } 2>/dev/null || commit=unknown
        { read -r kit <"$top/KIT"; } 2>/dev/null || kit=unknown
        kit=", kit $kit"
    fi
    echo "ice 0.1, commit $commit$kit; reads files of versions 1 and 2"
}

# What a command reads, answers and ends with, and two examples for a fresh checkout, with what they print. The status is 1 where
# there is no such command.
help_of() {
    case $1 in
    run)
        print <<'TEXT'
usage: ice run EXCHANGE ROUND..

Runs a session, and writes its journal.

reads    EXCHANGE, a market in JSON or in line form, and up to 20 round files with bids, in JSON:
         each when its round begins
answers  the journal, line by line as it is known: settlements, prices, bids with their verdicts,
         and at the close payments
status   0  closed: `end closed`               6  a file can't be read: `unread FILE`
         2  a file is refused: `refused ..`    7  standard output failed
         4  branches used up: `end spent`      8  want of memory
         5  the pricing's limit: `end limit`   9  open, wants a round more: `end open`

  $ ./ice run examples/hall.json | tail -n 1
  end open
  $ ./ice run examples/hall.json examples/hall-round.json | grep -E '^(payment (hall|choir)|end)'
  payment hall 40 75/2 -115/2
  payment choir 5 5/2 115/2
  end closed
TEXT
        ;;
    simulate)
        print <<'TEXT'
usage: ice simulate EXCHANGE TRUTHS

Plays a session in which each bidder has a proxy, which knows its true values and tells as little
as the rules allow.

reads    EXCHANGE, a market in JSON or in line form, and TRUTHS, a round file in JSON with one bid
         of each bidder, whose two lists are its true values
answers  the journal of that session
status   0  closed: `end closed`               6  a file can't be read: `unread FILE`
         2  a file is refused: `refused ..`    7  standard output failed
         4  branches used up: `end spent`      8  want of memory
         5  the pricing's limit: `end limit`

  $ ./ice simulate examples/season.json examples/season.truth.json | grep '^regret'
  regret 705
  regret 25
  $ ./ice simulate examples/generated.json examples/generated.truth.json | ./ice check /dev/stdin
  yes 0 0/1
TEXT
        ;;
    check)
        print <<'TEXT'
usage: ice check JOURNAL

Tests a journal, and trusts nothing that stands in it.

reads    JOURNAL, of kind assign, regret or session
answers  `yes VALUE`, of a regret journal `yes REGRET`, of a session `yes REGRET SURPLUS`; or
         `no LINE RULE`, the first test that fails
status   0  yes                                6  the file can't be read: `unread 1`
         2  the file is refused: `refused ..`  7  standard output failed
         3  no                                 8  want of memory

  $ ./ice check examples/hall-session.journal
  yes 0 0/1
  $ sed '9s/1$/0/' examples/sample.journal | ./ice check /dev/stdin
  no 10 excess
TEXT
        ;;
    replay)
        print <<'TEXT'
usage: ice replay JOURNAL N

Shows one settlement of a session, once its journal has passed every test.

reads    JOURNAL, of kind session, closed or not; N is a settlement from 0 to 20
answers  the bounds of each bidder, the total, the regret, and the prices where there are some
status   0  written: `end replay`              6  the file can't be read: `unread 1`
         2  the file is refused: `refused ..`  7  standard output failed
         3  no: a test failed                  8  want of memory

  $ ./ice replay examples/hall-session.journal 1 | grep -E '^(final|regret)'
  final 40
  regret 0
  $ ./ice replay examples/season-session.journal 2 | grep '^regret'
  regret 89
TEXT
        ;;
    statement)
        print <<'TEXT'
usage: ice statement JOURNAL NAME

Writes what a session that closed says to one of its bidders, and nothing of the others.

reads    JOURNAL, of a session that closed; NAME is a bidder's, spelled as in the market
answers  the statement: settings, goods, regrets and prices, and the bidder's tree, sets, bids and
         payment
status   0  written: `end statement`           6  the file can't be read: `unread 1`
         2  the file is refused: `refused ..`  7  standard output failed
         3  no: a test failed, or it is open   8  want of memory

  $ ./ice statement examples/hall-session.journal opera | tail -n 2
  payment opera 0 0/1 0/1
  end statement
  $ ./ice statement examples/season-session.journal Charter-Sud | grep '^payment'
  payment Charter-Sud 3 0/1 -151/1
TEXT
        ;;
    audit)
        print <<'TEXT'
usage: ice audit FILE

Tests a bidder's statement, with no journal.

reads    FILE, a statement as `ice statement` writes it
answers  `yes PAYMENT`, or `no LINE RULE`, the first test that fails
status   0  yes                                6  the file can't be read: `unread 1`
         2  the file is refused: `refused ..`  7  standard output failed
         3  no                                 8  want of memory

  $ ./ice statement examples/hall-session.journal choir | ./ice audit /dev/stdin
  yes 115/2
  $ ./ice statement examples/hall-session.journal choir | sed '/^payment/s/115/113/' | ./ice audit /dev/stdin
  no 21 payment
TEXT
        ;;
    fair)
        print <<'TEXT'
usage: ice fair JOURNAL

Looks for prices that come as near to the payments of a closed session as accurate prices can.

reads    JOURNAL, of a session that closed
answers  the prices, the distance to the payments that is left, and what shows that it is least
status   0  written: `end fair`                5  the search's limit: `end limit`
         2  the file is refused: `refused ..`  6  the file can't be read: `unread 1`
         3  no: a test failed, or it is open   7  standard output failed
                                               8  want of memory

  $ ./ice fair examples/hall-session.journal | grep -E '^(prices|distance|end)'
  prices 6 170 200 95
  distance 25/6
  end fair
  $ ./ice run examples/hall.json | ./ice fair /dev/stdin | cut -d ' ' -f 1,3
  no closed
TEXT
        ;;
    gap)
        print <<'TEXT'
usage: ice gap JOURNAL

Tests what a journal states where its branches are used up, which `check` doesn't read.

reads    JOURNAL, which ends with `end spent`
answers  `gap GROUP V X`: the sets there are worth V, and nothing that could stand in their place
         is worth more than X; or `no LINE RULE`, which is `no LINE spent` where no gap is stated
status   0  the gap                            6  the file can't be read: `unread 1`
         2  the file is refused: `refused ..`  7  standard output failed
         3  no                                 8  want of memory

  $ sed 's/"branches": 1000/"branches": 1/' examples/hall.json | ./ice run /dev/stdin | ./ice gap /dev/stdin
  gap rival 50 65
  $ ./ice gap examples/hall.journal
  no 31 spent
TEXT
        ;;
    best)
        print <<'TEXT'
usage: ice best EXCHANGE PRICES

Finds the best set of each bidder at prices.

reads    EXCHANGE, a market in JSON or in line form, and PRICES, in line form
answers  for each bidder `best NAME NET` and `set BITS`; NET is in hundredths, times the prices'
         denominator
status   0  written: `end best`                6  a file can't be read: `unread FILE`
         2  a file is refused: `refused ..`    7  standard output failed
                                               8  want of memory

  $ ./ice best examples/pair.exchange examples/pair.prices
  best b 14800
  set 101
  best s 100
  set 110
  end best
  $ ./ice best examples/airport.json examples/airport.prices | grep '^best airport'
  best airport 96000
TEXT
        ;;
    regret)
        print <<'TEXT'
usage: ice regret EXCHANGE

Finds the best assignment at lower values, and its regret: by how much another one may be better.

reads    EXCHANGE, a market in JSON or in line form
answers  a journal of kind regret, group by group
status   0  whole: `end regret`                6  the file can't be read: `unread 1`
         2  the file is refused: `refused ..`  7  standard output failed
         4  branches used up: `end spent`      8  want of memory

  $ ./ice regret examples/hall.json | grep -E '^(final|regret)'
  final 40
  regret 10
  $ ./ice regret examples/pair.exchange | ./ice check /dev/stdin
  yes 0
TEXT
        ;;
    migrate)
        print <<'TEXT'
usage: ice migrate JOURNAL

Writes a journal of version 1 in version 2, once it has passed every test.

reads    JOURNAL, of version 1 and of kind regret or session
answers  the same journal in version 2
status   0  written                            6  the file can't be read: `unread 1`
         2  the file is refused: `refused ..`  7  standard output failed
         3  no: a test failed                  8  want of memory

  $ ./ice migrate examples/regret.journal | grep -E '^(ice|near)'
  ice 2 regret
  near 1 0 640
  near 1 0 640
  $ ./ice migrate examples/hall-regret.journal | ./ice check /dev/stdin
  yes 10
TEXT
        ;;
    xor)
        print <<'TEXT'
usage: ice xor FILE

Makes an exchange of flat bids: packages with prices, of which a bidder gets at most one or any.

reads    FILE, a market in JSON whose bidders have `xor` or `or` in the place of `tree`
answers  the exchange, as one line of JSON
status   0  written                            6  the file can't be read: `unread 1`
         2  the file is refused: `refused ..`  7  standard output failed
                                               8  want of memory

  $ ./ice xor examples/packages.json | ./ice run /dev/stdin | grep -E '^(regret|end)'
  regret 4100
  end open
  $ sed 's/"capital": -2/"capital": -3/' examples/packages.json | ./ice xor /dev/stdin
  refused 1 14 bidders.0
TEXT
        ;;
    gen)
        print <<'TEXT'
usage: ice gen NUMBER

Runs a session of the generated exchange of a number, to try the program and its searches.

reads    no file; NUMBER is from 0 to 4294967295
answers  ten lines, from `gen NUMBER` to `end gen`; at statuses 4 and 5 the session's journal
status   0  closed: `end gen`                  5  the pricing's limit: `end limit`
         4  branches used up: `end spent`      7  standard output failed
                                               8  want of memory

  $ ./ice gen 7 | grep -E '^(opened|total|regret)'
  opened 70 41
  total 115
  regret 0
  $ ./ice gen 7 | tail -n 1
  end gen
TEXT
        ;;
    *) return 1 ;;
    esac
    echo
    echo "Status 1 says that the words are none of these, and 70 that there is no program that runs."
    echo "Files are named by any path, /dev/stdin among them. docs/formats.md has every line that is written."
}
