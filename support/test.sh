#!/bin/sh
# Tests what is around the program: the script fitsowar, help, manual page, completion, installation, the first run,
# and every command with its output in the texts. What it needs and isn't there is skipped, and told.
# The last line is 'N passed, M failed'; the exit status is 1 where something failed.
set -u
top=$(CDPATH='' cd -- "$(dirname -- "$0")/.." && pwd) || exit 2
passed=0
failed=0
room=$(mktemp -d) || exit 2
trap 'rm -rf "$room"' EXIT
trap 'exit 2' HUP INT TERM
export FITSOWAR_BUILD=never

pass() {
    passed=$((passed + 1))
}

fail() {
    failed=$((failed + 1))
    echo "FAILED: $1"
}

skip() {
    echo "skipped: $1"
}

# The test $1 is the command that follows.
check() {
    what=$1
    shift
    if "$@"; then pass; else fail "$what"; fi
}

same() {
    diff "$1" "$2" > "$room/difference" && return
    head -n 20 "$room/difference"
    return 1
}

# Runs a command and tests its status: STATUS COMMAND..; what it prints is in answer.
ends() {
    wanted=$1
    shift
    ("$@") > "$room/answer" 2>&1 </dev/null
    status=$?
    [ "$status" -eq "$wanted" ] && return
    echo "status $status and not $wanted: $*"
    return 1
}

has() {
    grep -q -e "$1" "$room/answer" && return
    head -n 20 "$room/answer"
    return 1
}

# A copy of what a user works with, in a folder with blanks in its name.
copy_repository() {
    mkdir -p "$1/crates/torx_tool/out" "$1/crates/sim_tool/out" &&
        cp -R "$top/README.md" "$top/crates.txt" "$top/fitsowar" "$top/simulate" "$top/docs" "$top/examples" "$top/support" "$1" || return
    for made in torx_tool sim_tool; do
        [ -x "$top/crates/$made/out/$made" ] || continue
        cp "$top/crates/$made/out/$made" "$1/crates/$made/out/$made" || return
    done
}

texts_are_true() {
    for text in README.md docs/COMMANDS.md docs/CI.md docs/READING.md examples/README.md; do
        (cd "$copy" && awk -f support/outputs.awk "$text") > "$room/now" 2>&1
        check "the outputs in $text" same "$top/$text" "$room/now"
    done
}

names() {
    awk -v as=commands -f "$top/support/reference.awk" "$top/docs/COMMANDS.md" | cut -f 1
}

help_is_whole() {
    check "help" ends 0 "$copy/fitsowar" help
    cp "$room/answer" "$room/help"
    for word in --help -h; do
        check "$word" ends 0 "$copy/fitsowar" "$word"
        check "$word says what help says" same "$room/help" "$room/answer"
    done
    check "no words" ends 3 "$copy/fitsowar"
    check "no words say what help says" same "$room/help" "$room/answer"
    check "help on no command" ends 3 "$copy/fitsowar" help nothing
    for name in $(names); do
        check "help $name" ends 0 "$copy/fitsowar" help "$name"
        cp "$room/answer" "$room/help"
        check "help $name shows an example" has '^    \$ ./fitsowar '
        check "help $name tells its exit status" has '^Exit status: '
        check "$name --help" ends 0 "$copy/fitsowar" "$name" --help
        check "$name --help says what help says" same "$room/help" "$room/answer"
    done
    sed -n '/^| Exit status/,/^$/p' "$top/README.md" > "$room/one"
    sed -n '/^| Exit status/,/^$/p' "$top/docs/COMMANDS.md" > "$room/other"
    check "the exit statuses of README.md and COMMANDS.md" same "$room/one" "$room/other"
    sed -n 's/^    .*if word == "\([a-z]*\)".*/\1/p' "$top/crates/torx_tool/src/commands.rt" | sort > "$room/one"
    names | sort > "$room/other"
    check "the commands of the program and of COMMANDS.md" same "$room/one" "$room/other"
}

# Each option that the text gives a command is one of the program's: with it the words are no fault, though there are
# no such files. What isn't in brackets in a command's heading has to be given.
options_are_known() {
    for name in $(names); do
        needed=$(sed -n "s/^## \`$name \(.*\)\`\$/\1/p" "$top/docs/COMMANDS.md" |
            sed -e 's/\[[^]]*\]//g' -e 's/|[^ ]*//g' -e 's/^N /1 /' -e 's/ N / 1 /g' -e 's/ N$/ 1/' -e 's/[A-Z][A-Z]*/no_such_file/g')
        awk -v as=options -f "$top/support/reference.awk" "$top/docs/COMMANDS.md" |
            awk -v name="$name" '$1 == name' > "$room/options"
        while read -r _ option value; do
            set --
            [ "$value" = flag ] || set -- "$(echo "$value" | sed -e 's/|.*//' -e 's/^N$/1/')"
            # shellcheck disable=SC2086
            check "$name $option" is_known "$name" "$option" "$@" $needed
        done < "$room/options"
    done
}

is_known() {
    "$copy/fitsowar" "$@" > "$room/answer" 2>&1 </dev/null
    [ "$?" -ne 3 ] || has 'no such answer'
}

# The installed program runs with no repository, and with nothing but the system's own folders on the PATH.
installs() {
    to="$room/an installed one"
    check "install" ends 0 "$copy/fitsowar" install "$to"
    check "install with no folder" ends 3 "$copy/fitsowar" install
    mv "$copy" "$room/moved away"
    mkdir -p "$room/elsewhere"
    check "the installed program" ends 0 in_elsewhere check "$room/moved away/examples/coffee/specification.aut" \
        "$room/moved away/examples/coffee/implementation.aut"
    check "its answer" has '^conforms pairs=3$'
    check "its status" ends 1 in_elsewhere check "$room/moved away/examples/coffee/specification.aut" \
        "$room/moved away/examples/coffee/mutant.aut"
    check "its help" ends 0 in_elsewhere help check
    check "its examples" has '^    \$ fitsowar check '
    check "its version" ends 0 in_elsewhere --version
    check "its status with no words" ends 3 in_elsewhere
    mv "$room/moved away" "$copy"
}

in_elsewhere() {
    (cd "$room/elsewhere" && PATH=/usr/bin:/bin exec "$to/bin/fitsowar" "$@")
}

manual_is_read() {
    page="$room/an installed one/share/man/man1/fitsowar.1"
    if ! man -l "$page" > "$room/answer" 2>"$room/errors" || ! [ -s "$room/answer" ]; then
        skip "the manual page: there is no man that reads it"
        return
    fi
    check "the manual page has no faults" [ ! -s "$room/errors" ]
    for name in $(names); do
        check "$name in the manual page" has "$name"
    done
}

# Completes the words given by bash, the last one being cut short, and tests that the answers are those of the file.
completes_in_bash() {
    bash --norc --noprofile -c '
        . "$1"
        shift
        COMP_WORDS=("$@")
        COMP_CWORD=$(($# - 1))
        compopt() { :; }
        _fitsowar
        printf "%s\n" "${COMPREPLY[@]}"' bash "$to/share/bash-completion/completions/fitsowar" "$@" > "$room/answer"
    tr '\n' ' ' < "$room/answer" | sed 's/ $//' > "$room/line"
}

completion_is_right() {
    to="$room/an installed one"
    if bash -c : 2>/dev/null; then
        completes_in_bash ./fitsowar ver
        check "bash completes a command" [ "$(cat "$room/line")" = verify ]
        completes_in_bash ./fitsowar check --pa
        check "bash completes an option" [ "$(cat "$room/line")" = --pairs ]
        completes_in_bash ./fitsowar check --divergence ''
        check "bash completes a value" [ "$(cat "$room/line")" = "refuse quiet" ]
        completes_in_bash ./fitsowar check --divergence = q
        check "bash completes a value after =" [ "$(cat "$room/line")" = quiet ]
        completes_in_bash ./fitsowar check exam
        check "bash leaves files to the shell" [ -z "$(cat "$room/line")" ]
    else
        skip "completion in bash: there is no bash"
    fi
    if zsh -c : 2>/dev/null; then
        check "the completion for zsh" zsh -n "$to/share/zsh/site-functions/_fitsowar"
    else
        skip "completion in zsh: there is no zsh"
    fi
}

# A small repository with a command rt that proves nothing, and keeps what it was called for.
small_repository() {
    small="$room/a small one"
    rm -rf "$small" "$room/kit"
    mkdir -p "$small/crates/low/src" "$small/crates/high/src" "$small/crates/torx_tool/src" "$small/docs" \
        "$small/examples/coffee" "$room/kit"
    cp -R "$top/support" "$top/fitsowar" "$top/simulate" "$small"
    printf 'low:\nhigh: low\ntorx_tool: low high\nother: low\n' > "$small/crates.txt"
    : > "$small/examples/coffee/specification.aut"
    cat > "$room/kit/rt" <<'END'
#!/bin/sh
echo "$*" >> "$KIT/calls"
case $1 in
version) echo kit-of-tests ;;
lib) echo 'low built' ;;
all)
    [ ! -f "$KIT/slow" ] || exec sleep 30
    printf '== low\nfn low::one: proved\n'
    tries=0
    while [ -f "$KIT/watched" ] && [ "$tries" -lt 100 ] && ! grep -q 'at work: high' "$KIT/../answer"; do
        sleep 0.1 2>/dev/null || sleep 1
        tries=$((tries + 1))
    done
    if [ -f "$KIT/fault" ]; then
        printf '== high\nnote: src/lib.rt:1:1: it is not proved\nerror: the reason\n== summary\nlow: ok\nhigh: failed (1)\n'
        exit 1
    fi
    printf '== high\nfn high::two: proved\n== torx_tool\n== summary\n3 of 3 crates ok\n'
    ;;
run)
    mkdir -p out
    printf '#!/bin/sh\necho "ran $*"\n' > out/torx_tool
    chmod +x out/torx_tool
    ;;
esac
END
    chmod +x "$room/kit/rt"
}

# The two are called in a shell of their own, which they take the place of.
with_kit() {
    cd "$small" && KIT="$room/kit" PATH="$room/kit:$PATH" FITSOWAR_BUILD='' exec "$shell" ./fitsowar "$@"
}

calls() {
    [ "$(grep -c "^$1" "$room/kit/calls")" -eq "$2" ]
}

# Makes all sources old, the program less so, and the file $1 new.
touch_later() {
    touch "$1"
    find "$small/crates" "$small/crates.txt" -exec touch -t 201901010000 {} +
    touch -t 202001010000 "$small/crates/torx_tool/out/"*
    touch "$1"
}

first_run_is_told() {
    small_repository
    touch "$room/kit/fault"
    check "a first run that fails" ends 127 with_kit outs x
    check "the reason" has '^error: the reason$'
    check "the place" has '^note: src/lib.rt:1:1: it is not proved$'
    check "no noise beside the reason" [ "$(grep -c ': proved$' "$room/answer")" -eq 0 ]
    rm "$room/kit/fault"
    check "no lock is left" [ ! -d "$small/out/building" ]
    touch "$room/kit/watched"
    check "a first run" ends 0 with_kit outs 'a word'
    check "how many crates" has '3 crates are proved and built first'
    check "which crate" has 'at work: low$'
    check "how many are left" has '^fitsowar: 1 of 3 crates built (.*), 2 left; at work: a quick look at all sources$'
    check "which crate is next" has '^fitsowar: 1 of 3 crates built (.*), 2 left; at work: high$'
    rm "$room/kit/watched"
    check "the program's answer" has '^ran outs a word$'
    check "a second run" ends 0 with_kit outs y
    check "a second run says no more" [ "$(cat "$room/answer")" = "ran outs y" ]
    check "the version" ends 0 with_kit --version
    check "the version's kit" has '^proved by kit-of-tests$'
    touch_later "$small/crates/high/src/lib.rt"
    check "a newer source" ends 0 with_kit outs z
    check "a newer source is told" has 'crates/high/src.* is newer than the program'
    for name in low high torx_tool; do
        mkdir -p "$small/crates/$name/out/incremental"
        : > "$small/crates/$name/out/incremental/work"
    done
    touch_later "$small/crates/low/src/lib.rt"
    check "a newer source over kept work" ends 0 with_kit outs z
    check "only what changed is built then" has 'what has changed is proved and built anew$'
    check "no look at all crates then" calls all 3
    touch_later "$small/crates/other.rt"
    check "a file of no needed crate" ends 0 with_kit outs z
    check "a file of no needed crate says nothing" [ "$(cat "$room/answer")" = "ran outs z" ]
    touch_later "$small/crates/high/src/lib.rt"
    if (PATH=/usr/bin:/bin command -v rt) >/dev/null 2>&1; then
        skip "runs without rt: it is among the system's own commands"
        return
    fi
    check "a newer source without rt" ends 0 without_kit outs z
    check "a newer source without rt is told" has "isn't on the PATH: the program runs as it was built"
    rm "$small/crates/torx_tool/out/torx_tool"
    check "no program and no rt" ends 127 without_kit outs z
}

without_kit() {
    cd "$small" && PATH=/usr/bin:/bin FITSOWAR_BUILD='' exec "$shell" ./fitsowar "$@"
}

two_runs_wait() {
    small_repository
    with_kit outs one > "$room/first" 2>&1 &
    first=$!
    (with_kit outs two) > "$room/second" 2>&1
    wait "$first"
    check "the first of two runs" grep -q '^ran outs one$' "$room/first"
    check "the second of two runs" grep -q '^ran outs two$' "$room/second"
    check "one of them built" calls all 1
}

interrupted_goes_on() {
    small_repository
    touch "$room/kit/slow"
    mkdir -p "$small/out/building"
    # (a process that is gone)
    sh -c 'echo $$' > "$room/gone"
    : > "$small/out/building/$(cat "$room/gone")"
    with_kit outs one > "$room/first" 2>&1 &
    first=$!
    tries=0
    until grep -q '^all' "$room/kit/calls" 2>/dev/null || [ "$tries" -ge 200 ]; do
        sleep 0.1 2>/dev/null || sleep 1
        tries=$((tries + 1))
    done
    kill "$first"
    wait "$first" 2>/dev/null
    rm "$room/kit/slow"
    check "an interrupted run says so" grep -q 'the next run goes on' "$room/first"
    check "an interrupted run leaves no lock" [ ! -d "$small/out/building" ]
    check "the next run" ends 0 with_kit outs two
}

# One session over TCP with a program under test: what it is, STATUS, how the log ends, PROGRAM, and options of drive.
session() {
    what=$1
    wanted=$2
    end=$3
    program=$4
    shift 4
    check "$what" ends "$wanted" env FITSOWAR="$copy/fitsowar" sh examples/adapter/session.sh \
        examples/coffee/specification.aut "$program" "$@"
    check "$what, its end" has "^$end\$"
    check "$what, its version" has '^torx log 2$'
}

# The sessions go over ports that are free, so that two runs don't meet.
sessions_over_tcp() {
    if ! command -v python3 > /dev/null 2>&1; then
        skip "sessions over TCP: there is no python3"
        return
    fi
    there=$(pwd)
    cd "$copy" || return
    served=examples/coffee/served
    session "a machine in Python" 0 'end 2 pass' "python3 examples/adapter/coffee.py" --goal "$served"
    session "a machine in Python that gives two teas" 1 'end 5 fail' "python3 examples/adapter/coffee.py twice" --seed 1 --steps 5 --patience 3
    session "a machine in shell" 0 'end 2 pass' "sh examples/adapter/coffee.sh" --goal "$served"
    session "a machine in shell that gives milk" 1 'end 2 fail' "sh examples/adapter/coffee.sh milk" --goal "$served"
    session "a program that ends" 2 'end 0 ended' true --goal "$served"
    check "an address without a port" ends 7 "$copy/fitsowar" drive examples/coffee/specification.aut localhost
    check "an address of a form that isn't one" ends 7 "$copy/fitsowar" drive examples/coffee/specification.aut ::1:1
    cd "$there" || return
}

# Starts the simulated implementation of the file $1, with the number $2 and $3 sessions, at a port that is free: the
# port is in `port`, the process in `simulator`, and what it prints in simulated. Where another took the port, it is
# started at another one.
simulates() {
    starts=0
    while [ "$starts" -lt 5 ]; do
        starts=$((starts + 1))
        port=$(python3 -c 'import socket; s = socket.socket(); s.bind(("127.0.0.1", 0)); print(s.getsockname()[1])') || return
        "$copy/simulate" "$1" "127.0.0.1:$port" "$2" "$3" > "$room/simulated" 2>&1 </dev/null &
        simulator=$!
        tries=0
        while [ "$tries" -lt 200 ] && kill -0 "$simulator" 2>/dev/null; do
            grep -q '^listening$' "$room/simulated" && return
            sleep 0.05 2>/dev/null || sleep 1
            tries=$((tries + 1))
        done
        kill "$simulator" 2>/dev/null
        wait "$simulator" 2>/dev/null
    done
    cat "$room/simulated"
    return 1
}

# The simulated implementation ends by itself, with status 0, and printed the lines on standard input.
simulator_ends() {
    tries=0
    while [ "$tries" -lt 200 ] && kill -0 "$simulator" 2>/dev/null; do
        sleep 0.05 2>/dev/null || sleep 1
        tries=$((tries + 1))
    done
    kill "$simulator" 2>/dev/null
    wait "$simulator" 2>/dev/null
    status=$?
    cat > "$room/wanted"
    [ "$status" -eq 0 ] && same "$room/wanted" "$room/simulated"
}

# One session with the simulated implementation: what it is, STATUS, how the log ends, SPEC, and options of drive.
driven() {
    what=$1
    wanted=$2
    end=$3
    spec=$4
    shift 4
    check "$what" ends "$wanted" "$copy/fitsowar" drive "$@" -- "$spec" "127.0.0.1:$port"
    check "$what, its end" has "^$end\$"
}

# Two programs, each in a process of its own, over TCP.
sessions_with_a_simulation() {
    if ! command -v python3 > /dev/null 2>&1; then
        skip "sessions with the simulated implementation: there is no python3"
        return
    fi
    there=$(pwd)
    cd "$copy" || return
    coffee=examples/coffee
    printf 'des (0,3,2)\n(0,"?a",1)\n(1,"!x",0)\n(1,"?a",1)\n' > "$room/RI.aut"
    printf 'send ?a\nobserve\n' > "$room/script"
    check "a simulation listens" simulates "$room/RI.aut" 0 1
    driven "a session by a script" 0 'end 2 pass' "$room/RI.aut" --script "$room/script" --steps 2 --patience 5
    tail -n 3 "$room/answer" > "$room/one"
    printf 'sent ?a\nheard !x\nend 2 pass\n' > "$room/other"
    check "its entries" same "$room/other" "$room/one"
    check "that simulation ends" simulator_ends << END
listening
session 1 inputs=1 outputs=1 end
END
    check "a simulation of a machine listens" simulates $coffee/implementation.aut 5 3
    driven "a simulated machine" 0 'end 2 pass' $coffee/specification.aut --goal $coffee/served
    driven "the same machine again" 0 'end 2 pass' $coffee/specification.aut --goal $coffee/served
    driven "the same machine, for quiescence" 0 'end 1 pass' $coffee/specification.aut --steps 1 --script /dev/null --patience 2
    check "that simulation ends" simulator_ends << END
listening
session 1 inputs=1 outputs=1 end
session 2 inputs=1 outputs=1 end
session 3 inputs=0 outputs=0 end
END
    check "a simulation of a mutant listens" simulates $coffee/mutant.aut 0 1
    driven "a simulated mutant" 1 'end [0-9]* fail' $coffee/specification.aut --seed 3 --steps 6 --patience 2
    check "the mutant's output" has '^heard !milk$'
    check "that simulation ends" simulator_ends << END
listening
session 1 inputs=1 outputs=1 end
END
    check "an address that isn't one" ends 7 "$copy/simulate" $coffee/mutant.aut 127.0.0.1 0 1
    check "no session is told" [ ! -s "$room/answer" ]
    check "a system that lacks an input" ends 4 "$copy/simulate" $coffee/specification.aut 127.0.0.1:0 0 1
    check "what it lacks" has '^not-enabled examples/coffee/specification.aut state=1 input=?coin$'
    cd "$there" || return
}

# The first run in the shell $1, beside other tests: what it says and its counts go to files.
in_shell() {
    shell=$1
    mkdir "$room/$shell"
    (
        room="$room/$shell"
        passed=0
        failed=0
        first_run_is_told
        two_runs_wait
        interrupted_goes_on
        echo "$passed $failed" > "$room/counts"
    ) > "$room/$shell/said" 2>&1 &
}

count_in() {
    cat "$room/$1/said"
    if read -r more less < "$room/$1/counts"; then
        passed=$((passed + more))
        failed=$((failed + less))
    else
        fail "the first run in $1: its tests stopped"
    fi
}

for script in "$top"/support/*.sh "$top/fitsowar" "$top/simulate" "$top"/examples/ci/*.sh "$top"/examples/adapter/*.sh; do
    for shell in sh dash bash; do
        command -v "$shell" >/dev/null 2>&1 && check "$shell reads $script" "$shell" -n "$script"
    done
done
shells=
for shell in dash bash; do
    if command -v "$shell" >/dev/null 2>&1; then
        in_shell "$shell"
        shells="$shells $shell"
    else
        skip "the first run in $shell: there is no $shell"
    fi
done
copy="$room/a copy with blanks"
copy_repository "$copy" || exit 2
# (a text installs a copy)
export TMPDIR="$room"
if [ -x "$copy/crates/torx_tool/out/torx_tool" ]; then
    texts_are_true
    help_is_whole
    options_are_known
    installs
    manual_is_read
    completion_is_right
    sessions_over_tcp
else
    skip "the texts, help, installation, completion and sessions: the program isn't built"
fi
if [ -x "$copy/crates/torx_tool/out/torx_tool" ] && [ -x "$copy/crates/sim_tool/out/sim_tool" ]; then
    sessions_with_a_simulation
else
    skip "sessions with the simulated implementation: the programs aren't built"
fi
wait
for shell in $shells; do
    count_in "$shell"
done
echo "$passed passed, $failed failed"
[ "$failed" -eq 0 ]
