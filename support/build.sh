#!/bin/sh
# Builds the program where it isn't there, or where a source is newer, and says on standard error how far it is.
# Words: the top of the repository, and then
#   run WORD..       runs the program on these words then
#   simulate WORD..  the same for the simulated implementation, which is a program of its own
#   build            ends with status 0 where the program can be run
#   note             builds nothing; notes the version of a program that another command built
# The exit status is 127 where there is no program that can be run. With FITSOWAR_BUILD=never nothing is built, and
# the program is taken as it stands.
set -u

top=$1
task=$2
shift 2
made=torx_tool
[ "$task" != simulate ] || made=sim_tool
crate=$top/crates/$made
program=$crate/out/$made
version=$program.version
kept=$top/out
lock=$kept/building
log=$kept/build.log
rt=
is_mine=
last_told=0

say() {
    printf 'fitsowar: %s\n' "$1" >&2
}

# The crates that the program needs, lowest first, each with those that it stands on.
needed() {
    awk -v top="$made" -f "$top/support/needed.awk" "$top/crates.txt"
}

# Prints a file that the program is made from and that is newer than it. Folders count, as a file may be gone.
# What noted the program's version bears the time at which its build began.
newer_source() {
    mark=$program
    [ -f "$version" ] && mark=$version
    set -- "$top/crates.txt"
    for name in $(needed | cut -d ' ' -f 1); do
        set -- "$@" "$top/crates/$name/src" "$top/crates/$name/specs" "$top/crates/$name/proofs"
    done
    find "$@" -newer "$mark" -print 2>/dev/null | head -n 1
}

# Waits a little. (Not every sleep knows parts of a second.)
nap() {
    sleep 0.2 2>/dev/null || sleep 1
}

is_current() {
    [ -x "$program" ] && [ -z "$(newer_source)" ]
}

# Notes beside the program which commit's files it was made from and by which kit, as of the time of the file $1.
note_version() {
    commit=$(git -C "$top" rev-parse HEAD 2>/dev/null) || commit=unknown
    changed=$(git -C "$top" status --porcelain -- crates crates.txt 2>/dev/null) || changed=
    [ -z "$changed" ] || commit="$commit, with changes"
    printf 'commit %s\nproved by %s\n' "$commit" "$(rt version 2>/dev/null || echo unknown)" > "$version.new" &&
        touch -r "$1" "$version.new" && mv "$version.new" "$version"
}

# The lock is a folder with one file, named by its owner's process. Only one run can remove that file, so only one
# takes the lock of an owner that is gone.
is_alive() {
    kill -0 "$1" 2>/dev/null || ps -p "$1" >/dev/null 2>&1
}

take_lock() {
    was_told=
    empty=0
    until mkdir "$lock" 2>/dev/null && touch "$lock/$$" 2>/dev/null; do
        if [ ! -d "$lock" ] && [ ! -w "$kept" ]; then
            say "the folder $kept can't be written"
            return 1
        fi
        owner=$(ls "$lock" 2>/dev/null)
        if [ -z "$owner" ]; then
            # (its owner is about to sign it, or is gone)
            empty=$((empty + 1))
            [ "$empty" -lt 5 ] || rmdir "$lock" 2>/dev/null
        elif ! is_alive "$owner"; then
            rm "$lock/$owner" 2>/dev/null && rmdir "$lock" 2>/dev/null
            continue
        elif [ -z "$was_told" ]; then
            say "process $owner is building the program; waiting for it ($lock is its mark)"
            was_told=1
        fi
        nap
    done
    is_mine=1
}

drop_lock() {
    [ -z "$is_mine" ] || { rm -f "$lock/$$" && rmdir "$lock"; } 2>/dev/null
    is_mine=
}

stop() {
    trap '' HUP INT TERM
    if [ -n "$rt" ]; then
        kill "$rt" 2>/dev/null
        wait "$rt" 2>/dev/null
    fi
    drop_lock
    say "stopped; the next run goes on from what is built"
    exit "$1"
}

# How many crates are built at a time: as many as there are processors, with 3 GB of free memory for each.
lanes() {
    many=$(nproc 2>/dev/null || getconf _NPROCESSORS_ONLN 2>/dev/null || echo 1)
    free=$(awk '/^MemAvailable:/ { print int($2 / 3000000) }' /proc/meminfo 2>/dev/null)
    [ -z "$free" ] || [ "$free" -ge "$many" ] || many=$free
    [ "$many" -ge 1 ] || many=1
    echo "$many"
}

spent() {
    seconds=$(($(date +%s) - began))
    if [ "$seconds" -lt 100 ]; then
        echo "$seconds s"
    else
        echo "$((seconds / 60)) min $((seconds % 60)) s"
    fi
}

# Of the crates that aren't built yet, the first ones, as many as are built at a time, are in hand; those whose
# libraries are all there are at work.
at_work() {
    needed | awk -v lanes="$jobs" -v finished="$finished" '
        BEGIN { for (count = split(finished, names, " "); count > 0; count--) built[names[count]] = 1 }
        $1 in built || held == lanes { next }
        {
            held++
            for (i = 2; i <= NF; i++) if (!($i in built)) next
            work = work " " $1
        }
        END { print substr(work, 2) }'
}

tell() {
    last_told=$(date +%s)
    if [ -n "$is_linking" ]; then
        say "linking the program ($(spent))"
        return
    fi
    if [ -n "$is_again" ]; then
        now=$(sed -n 's/^rt: chose --jobs [0-9]* for //p' "$log" | tail -n 1)
        say "building anew what has changed ($(spent))${now:+; at work: $now}"
        return
    fi
    now=$(at_work)
    [ -z "$is_reading" ] || now="a quick look at all sources"
    say "$done_count of $whole crates built ($(spent)), $((whole - done_count)) left${now:+; at work: $now}"
}

# Counts the crates that are told in the log since this was last called. (The first word of rt on the lowest crate
# follows its look at all sources.)
look() {
    if [ -n "$is_reading" ] && [ "$(grep -c '^== ' "$log")" -ge 2 ]; then
        is_reading=
        is_new=1
    fi
    for name in $(sed -n 's/^== \([a-z0-9_]*\)$/\1/p' "$log"); do
        case " summary $finished " in
        *" $name "*) continue ;;
        esac
        finished="$finished $name"
        done_count=$((done_count + 1))
        is_new=1
    done
}

# Runs rt with the words given in the folder $1, and says how far it is, at the latest after a minute.
follow() {
    cd "$1" || return 1
    shift
    rt "$@" </dev/null >>"$log" 2>&1 &
    rt=$!
    cd "$top" || return 1
    while is_alive "$rt"; do
        nap
        is_new=
        look
        if [ -n "$is_new" ] || [ $(($(date +%s) - last_told)) -ge 60 ]; then tell; fi
    done
    wait "$rt"
    status=$?
    rt=
    return "$status"
}

# The reason of a failure: the log without what was proved, and without what every crate's part says.
tell_reason() {
    grep -v -e ': proved$' -e '^statements ' -e '^library ' -e '^logic' -e '^crate ' -e '^rt: chose ' -e '^== ' \
        -e ': ok$' -e '^note: finished ' -e '^by-macro: ' "$log" | tail -n 60 >&2
    say "the program could not be built; the whole text is in $log"
}

# Whether an earlier run kept its work in each crate.
has_kept_all() {
    for name in $(needed | cut -d ' ' -f 1); do
        [ -n "$(ls "$top/crates/$name/out/incremental" 2>/dev/null)" ] || return
    done
}

# Builds all that the program needs, several crates at a time.
build_all() {
    say "$why: $whole crates are proved and built first, $jobs at a time; what is built already is kept"
    say "the first time this may take from 20 minutes (four free processors) to over an hour (one, or a busy machine)"
    tell
    # all others wait for the lowest crate, so it has the processors to itself
    follow "$top/crates/$lowest" lib || return 1
    echo "== $lowest" >> "$log"
    is_reading=1
    look
    tell
    follow "$crate" all check --jobs "$jobs" || return 1
    is_linking=1
    tell
}

# Links the program and runs it once: the simulated implementation without words, which it refuses.
link() {
    if [ "$task" = simulate ]; then
        follow "$crate" run
        [ "$?" -eq 3 ]
        return
    fi
    follow "$crate" run -- outs "$top/examples/coffee/specification.aut"
}

build() {
    jobs=$(lanes)
    whole=$(needed | wc -l)
    whole=$((whole))
    lowest=$(needed | head -n 1 | cut -d ' ' -f 1)
    finished=
    done_count=0
    is_linking=
    is_reading=
    is_again=
    began=$(date +%s)
    : > "$log"
    touch "$kept/began"
    # over kept work rt builds what changed crate by crate, without a look at all sources first
    if has_kept_all; then
        is_again=1
        say "$why: what has changed is proved and built anew"
    else
        build_all || return 1
    fi
    link || return 1
    [ -x "$program" ] || return 1
    note_version "$kept/began"
    say "built in $(spent)"
}

# Makes the program ready to be run, or tells why it isn't.
ready() {
    is_current && return
    if [ "${FITSOWAR_BUILD-}" = never ]; then
        [ -x "$program" ] && return
        say "the program isn't built yet"
        return 1
    fi
    if ! command -v rt >/dev/null 2>&1; then
        if [ -x "$program" ]; then
            say "$(newer_source) is newer than the program, and 'rt' isn't on the PATH: the program runs as it was built"
            return
        fi
        say "the program isn't built yet, and 'rt' (the command of the Rattle kit) isn't on the PATH"
        return 1
    fi
    mkdir -p "$kept" || return 1
    trap 'stop 129' HUP
    trap 'stop 130' INT
    trap 'stop 143' TERM
    take_lock || return 1
    why="the program isn't built yet"
    [ ! -x "$program" ] || why="$(newer_source) is newer than the program"
    is_ready=1
    is_current || build || is_ready=
    drop_lock
    trap - HUP INT TERM
    if [ -z "$is_ready" ]; then
        tell_reason
        return 1
    fi
    is_current || say "$(newer_source) changed during the build, so the program is of the files before"
}

case $task in
note)
    [ -f "$version" ] || ! is_current || note_version "$program"
    exit
    ;;
run | simulate)
    ready || exit 127
    exec "$program" "$@"
    ;;
build) ready || exit 127 ;;
esac
