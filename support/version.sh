#!/bin/sh
# Prints which commit's files the program of the repository $1 was made from, and which kit proved it, as it was
# noted when the program was built.
set -u
top=$1
program=$top/crates/torx_tool/out/torx_tool
if [ ! -x "$program" ]; then
    echo "fitsowar: the program isn't built yet"
elif [ -f "$program.version" ]; then
    echo "fitsowar"
    cat "$program.version"
else
    echo "fitsowar: the program was built by another command than this one, which noted no version"
fi
