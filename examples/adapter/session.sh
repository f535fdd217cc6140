#!/bin/sh
# One session with a program under test: starts it behind a port, drives it, and stops it.
# Words: SPEC PROGRAM, and then options of drive; PROGRAM with its words is one word here.
# FITSOWAR names the program that drives. Prints the log, and ends as drive does; 9 where the port didn't open.
set -u
here=$(dirname "$0")
fitsowar=${FITSOWAR:-fitsowar}
if [ "$#" -lt 2 ]; then
    echo "session.sh: SPEC PROGRAM [OPTIONS]" >&2
    exit 9
fi
spec=$1
program=$2
shift 2
port_file=$(mktemp) || exit 9
# the words of the program are to be split
# shellcheck disable=SC2086
python3 "$here/listen.py" $program > "$port_file" &
listener=$!
trap 'kill "$listener" 2> /dev/null; rm -f "$port_file"' EXIT
port=
tries=0
while [ -z "$port" ] && [ "$tries" -lt 100 ]; do
    sleep 0.05
    tries=$((tries + 1))
    read -r port < "$port_file"
done
if [ -z "$port" ]; then
    echo "session.sh: no port" >&2
    exit 9
fi
"$fitsowar" drive "$@" -- "$spec" "127.0.0.1:$port"
