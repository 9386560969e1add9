# shellcheck shell=bash
# Builds the program, several crates side by side. The launcher `ice` reads this file when something has to be built, and calls
# build_once; it gives `top`, the folder of the checkout, `program`, and is_current, which says whether nothing is to be done.
#
# A crate starts when those below it are done, the one with the longest chain of crates above it first. ICE_LANES=N says how
# many are built side by side.
#
# A crate is proved from nothing, by `rattle build --statements`, as `rt ci` does it: the library that it leaves has what other
# crates can cite, and no proof. So a crate above reads that alone, where a library of `rt lib` has all proofs. All libraries
# lie in one folder, each beside the sum of what it was made from.

: "${top:?}" "${program:?}"

# The crates that the program stands on and the program itself, each after those below it; behind each name stand those below,
# all of them.
crates_in_order() {
    awk '
        function visit(name,    all, count, i, j, has) {
            if (seen[name]++ || !(name in named)) return
            count = split(named[name], all, " ")
            for (i = 1; i <= count; i++) if (all[i] in named) {
                visit(all[i])
                split(below[all[i]], has, " ")
                for (j in has) is_below[name, has[j]] = 1
                is_below[name, all[i]] = 1
            }
            for (i = 1; i <= found; i++) if ((name, order[i]) in is_below) below[name] = below[name] " " order[i]
            order[++found] = name
        }
        { sub(/#.*/, "") }
        split($0, part, ":") > 1 { split(part[1], word, " "); named[word[1]] = part[2] }
        END { visit("ice_cli"); for (i = 1; i <= found; i++) print order[i] below[order[i]] }
    ' "$top/crates.txt"
}

# Fills `crates`, those that are to be built, with the longest chain above them first, and for each crate `named`, those that its
# line names, `below`, `sum`, `finished`, `weight`, and `chain`, the weight of the longest chain that begins with it. A weight is
# about a second of one processor, told by the bytes of the code, and more for a crate that stands on many.
plan() {
    local name it all under size path order=()
    local -A size_of=()
    while read -r size path; do
        name=${path%/src}
        name=${name##*/}
        size_of[$name]=$((${size_of[$name]:-0} + size))
    done < <(find "$top"/crates/*/src -name '*.rt' -printf '%s %H\n')
    while IFS=: read -r name all; do
        named[$name]=$all
    done < <(sed 's/#.*//; s/ *:/:/' "$top/crates.txt" | grep :)
    while read -r name all; do
        order+=("$name")
        below[$name]=$all
        read -ra under <<<"$all"
        weight[$name]=$(((1000 + 200 * ${#under[@]} + ${size_of[$name]:-0}) / 400))
        sum_up "$name"
        if is_built "$name"; then
            finished[$name]=yes
            begun[$name]=yes
        else
            rm -f "$libraries/$name.sum"
        fi
    done < <(crates_in_order)
    for ((it = ${#order[@]} - 1; it >= 0; it--)); do
        name=${order[$it]}
        [ -z "${finished[$name]:-}" ] || weight[$name]=0
        chain[$name]=$((${chain[$name]:-0} + ${weight[$name]}))
        for all in ${below[$name]}; do
            [ "${chain[$all]:-0}" -ge "${chain[$name]}" ] || chain[$all]=${chain[$name]}
        done
    done
    mapfile -t crates < <(for name in "${order[@]}"; do [ "${finished[$name]:-}" ] || echo "${chain[$name]} $name"; done | sort -s -k1,1nr | cut -d' ' -f2)
}

since() {
    printf '%d min %02d s' $(((SECONDS - started) / 60)) $(((SECONDS - started) % 60))
}

# What is left in seconds of weight: the longest chain that isn't done, or a lane's share of all that isn't, whichever is more.
# Of a crate that is under way its time so far is taken off, up to nine tenths of it.
weight_left() {
    local name lane all=0 longest=0 rest off
    for name in "${crates[@]}"; do
        [ -z "${finished[$name]:-}" ] || continue
        off=0
        for lane in "${!doing[@]}"; do
            [ "${doing[$lane]}" = "$name" ] || continue
            off=$(((SECONDS - ${begun_at[$lane]}) * 1000 / pace))
            [ "$off" -le $((${weight[$name]} * 9 / 10)) ] || off=$((${weight[$name]} * 9 / 10))
        done
        rest=$((${chain[$name]} - off))
        [ "$rest" -le "$longest" ] || longest=$rest
        all=$((all + ${weight[$name]} - off))
    done
    all=$((all / lanes))
    [ "$all" -ge "$longest" ] || all=$longest
    echo "$all"
}

# About how long it still takes, by the weight of what is done and left. At first a second of weight counts as a second, and
# then more and more as what this build came to.
to_go() {
    local left minutes
    left=$(weight_left)
    pace=$((1000 * (SECONDS - started + whole / 5) / (whole - left + whole / 5 + 1) + 1))
    minutes=$(((left * pace / 1000 + 30) / 60))
    [ "$minutes" -gt 0 ] && echo "about $minutes min" || echo "less than a minute"
}

# How many crates are built side by side: one a processor, and one for each 4 GB of memory that is free, both also by the limits
# of a container.
lanes_here() {
    local processors gigabytes limit period
    if [[ ${ICE_LANES:-} =~ ^[1-9][0-9]?$ ]]; then
        echo "$ICE_LANES"
        return
    fi
    processors=$(nproc 2>/dev/null) || processors=1
    if read -r limit period 2>/dev/null </sys/fs/cgroup/cpu.max && [ "$limit" != max ]; then
        [ $((limit / period)) -ge "$processors" ] || processors=$((limit / period))
    fi
    gigabytes=$(awk '/^MemAvailable:/ { print int($2 / 1048576) }' /proc/meminfo 2>/dev/null)
    gigabytes=${gigabytes:-4}
    if read -r limit 2>/dev/null </sys/fs/cgroup/memory.max && [ "$limit" != max ]; then
        [ $((limit >> 30)) -ge "$gigabytes" ] || gigabytes=$((limit >> 30))
    fi
    [ $((gigabytes / 4)) -ge "$processors" ] || processors=$((gigabytes / 4))
    [ "$processors" -ge 1 ] || processors=1
    echo "$processors"
}

# Sets `sum` of a crate: what its library is made from, with the toolchain and all libraries below.
sum_up() {
    local it
    sum[$1]=$({
        cat "$kit/WHAT"
        echo "$1: ${named[$1]}"
        cd "$top/crates/$1" && find src specs proofs -type f -print0 2>/dev/null | LC_ALL=C sort -z | xargs -0r sha256sum
        for it in ${named[$1]}; do echo "${sum[$it]:-}"; done
    } | sha256sum | cut -d' ' -f1)
}

# Whether a crate was made from what is there now, and still is where it was put.
is_built() {
    [ "$(cat "$libraries/$1.sum" 2>/dev/null)" = "${sum[$1]}" ] || return
    if [ "$1" = ice_cli ]; then [ -x "$program" ]; else [ -d "$libraries/$1.rlib" ]; fi
}

# Starts a crate in a lane with so many jobs.
start() {
    local lane=$1 jobs=$2 name=$3 it words
    words=(build --crate-name "$name" --antt-project "$kit/rattle/logic/antt-project.json" --logic-built "$kit/logic_built")
    words+=(-L "dependency=$kit/rlibs" -L "dependency=$libraries" --extern "std=$kit/rlibs/std.rlib")
    for it in ${named[$name]}; do
        if [ "${sum[$it]:-}" ]; then words+=(--extern "$it=$libraries/$it.rlib"); else words+=(--extern "$it=$kit/rlibs/$it.rlib"); fi
    done
    words+=(--links "$name=" --jobs "$jobs")
    if [ "$name" = ice_cli ]; then
        words+=(--toolchain "$kit/toolchain" --backend llvm -o "$room/ice_cli.o" src/main.rt)
    else
        words+=(--statements -o "$room/$name.rlib" src/lib.rt)
    fi
    (
        trap - EXIT HUP INT TERM
        cd "$top/crates/$name" && exec "$kit/bin/rattle" "${words[@]}"
    ) >"$room/log-$lane" 2>&1 </dev/null 9<&- &
    child[lane]=$!
    doing[lane]=$name
    begun_at[lane]=$SECONDS
}

# Takes what was made of a crate, and notes what it was made from, unless that changed since.
built() {
    local was=${sum[$1]}
    if [ "$1" = ice_cli ]; then
        "$kit/bin/rattle-link" --target x86_64-unknown-linux-gnu --toolchain "$kit/toolchain" -o "$room/ice_cli" "$room/ice_cli.o" \
            "$kit/c/libos_c.a" "$kit/c/liblibc_c.a" >"$room/log-link" 2>&1 || { cat "$room/log-link" >&2; return 1; }
        mv -f "$room/ice_cli" "$program" || return
    else
        rm -rf "${libraries:?}/$1.rlib" && mv "$room/$1.rlib" "$libraries/" || return
    fi
    sum_up "$1"
    [ "$was" != "${sum[$1]}" ] || echo "$was" >"$libraries/$1.sum"
    sum[$1]=$was
}

# Ends what runs in the lanes.
end_all() {
    local lane
    for lane in "${!child[@]}"; do kill "${child[$lane]}" 2>/dev/null; done
    for lane in "${!child[@]}"; do wait "${child[$lane]}" 2>/dev/null; done
}

interrupted() {
    trap '' HUP INT TERM
    end_all
    exit "$1"
}

# What the toolchain said of a crate, and the status that it ended with: past 128 it was killed, as where memory ran out.
failed() {
    trap '' HUP INT TERM
    unset "child[$1]"
    end_all
    cat "$room/log-$1" >&2
    echo "ice: ${doing[$1]} could not be built: rattle ended with status $2, after the lines above; docs/troubleshooting.md says what to do at status 70" >&2
    exit 70
}

# Waits until a crate ends, and takes all that have ended.
await_one() {
    local lane status running
    wait -n "${child[@]}"
    running=" $(jobs -rp | tr '\n' ' ')"
    for lane in "${!child[@]}"; do
        [[ $running != *" ${child[$lane]} "* ]] || continue
        wait "${child[$lane]}"
        status=$?
        # 137 is a kill, most likely for want of memory: once more, with one job.
        if [ "$status" = 137 ] && [ -z "${again[${doing[$lane]}]:-}" ]; then
            again[${doing[$lane]}]=yes
            start "$lane" 1 "${doing[$lane]}"
            continue
        fi
        [ "$status" = 0 ] || failed "$lane" "$status"
        unset "child[$lane]"
        built "${doing[$lane]}" || interrupted 70
        finished[${doing[$lane]}]=yes
        unset "doing[$lane]"
    done
}

# Starts what stands on nothing that is left, in the lanes that are free.
start_ready() {
    local name it lane jobs ready=() free=$((lanes - ${#child[@]}))
    for name in "${crates[@]}"; do
        [ -z "${begun[$name]:-}" ] || continue
        for it in ${below[$name]}; do [ "${finished[$it]:-}" ] || continue 2; done
        ready+=("$name")
    done
    for ((it = 0; it < ${#ready[@]} && free > 0; it++)); do
        name=${ready[$it]}
        for ((lane = 0; lane < lanes; lane++)); do [ "${child[$lane]:-}" ] || break; done
        # A crate gets the processors that no other waits for.
        jobs=$((free / (${#ready[@]} - it)))
        [ "$jobs" -ge 1 ] || jobs=1
        [ "$jobs" -le 4 ] || jobs=4
        begun[$name]=yes
        number=$((number + 1))
        echo "ice: $number of ${#crates[@]}, $name ($(since) so far, $(to_go) to go)" >&2
        start "$lane" "$jobs" "$name"
        free=$((free - jobs))
    done
}

# Makes the folder of the libraries, and in it one for what is being made. Neither git nor rt walks into .git; where that is no
# folder here, as in a further work tree, they lie below out/ of the program. What a launcher left that was killed is removed:
# this one holds the lock, and what such a launcher's rattle may still write lands nowhere.
make_room() {
    libraries="$top/.git"
    [ -d "$libraries" ] && [ ! -L "$libraries" ] && [ -w "$libraries" ] || libraries="$top/crates/ice_cli/out"
    libraries+=/ice-libraries
    ! command -v flock >/dev/null || rm -rf "$libraries"/new-*
    mkdir -p "$libraries" "${program%/*}" && room=$(mktemp -d "$libraries/new-XXXXXX") && : >"$room/begun"
}

remove_room() {
    # what was told to end may end a moment after it
    rm -rf "$room" 2>/dev/null || { sleep 1 && rm -rf "$room"; }
}

build() {
    local crates=() number=0 started=$SECONDS lanes kit libraries room whole pace=1000
    local -A named=() below=() sum=() weight=() chain=() begun=() finished=() again=()
    local -a child=() doing=() begun_at=()
    if ! kit=$(command -v rt); then
        echo "ice: the program isn't built yet, and the toolchain's command rt isn't on the PATH: see docs/troubleshooting.md, status 70" >&2
        exit 70
    fi
    kit=$(readlink -f "$kit")
    kit=${kit%/bin/rt}
    make_room || exit 70
    trap remove_room EXIT
    trap 'interrupted 129' HUP
    trap 'interrupted 130' INT
    trap 'interrupted 143' TERM
    plan
    lanes=$(lanes_here)
    whole=$(weight_left)
    echo "ice: proving and building the program's ${#crates[@]} crates, $lanes at a time: $(to_go); up to 4 GB of memory for each, 5 GB of disk; ./ice-unproved answers meanwhile" >&2
    while [ "${#finished[@]}" -lt "${#below[@]}" ]; do
        start_ready
        await_one
    done
    # A build that found nothing changed leaves the program as it was, and older than its sources. What was changed since
    # the build began is newer than the program, and so is built the next time.
    touch -r "$room/begun" "$program"
    trap - EXIT HUP INT TERM
    remove_room
    echo "ice: built in $(since)" >&2
}

# Of several launchers at once one builds, and the others wait and then find the program built.
build_once() {
    exec 9<"$top/crates.txt"
    if command -v flock >/dev/null && ! flock -n 9; then
        echo "ice: another run builds the program; waiting for it" >&2
        flock 9
    fi
    is_current || build
    exec 9<&-
}
