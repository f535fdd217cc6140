#!/bin/sh
# Prints help from the text $1 (docs/COMMANDS.md): the commands, or the section of the command $2.
# Exit status 0; 3 where there is no such command.
set -u
reference=$1
own=$(dirname -- "$0")

# What the text has, in the form $1; of the section $2, where it is one's.
part() {
    awk -v as="$1" -v wanted="${2-}" -v only="${3-}" -f "$own/reference.awk" "$reference"
}

overview() {
    echo "Usage: fitsowar COMMAND [OPTIONS] FILES"
    echo
    echo "Fitsowar checks whether an implementation conforms to its specification by ioco"
    echo "or uioco, where both are labelled transition systems in files."
    echo
    echo "Commands:"
    part overview
    echo
    options
    echo
    echo "Other words:"
    part section "Help, version, installation" items
    echo
    echo "Exit status:"
    part section "Exit statuses"
    echo
    echo "'fitsowar help COMMAND' tells all of one command."
}

# The heading of the options of every command; after `but` it tells the command that has none of them.
shared=$(sed -n 's/^## \(Options of every command.*\)/\1/p' "$reference")

options() {
    echo "$shared:"
    part section "$shared" items
}

if [ "$#" -gt 2 ]; then
    echo "fitsowar: help takes one command at most" >&2
    exit 3
fi
if [ "$#" -lt 2 ]; then
    overview
    exit 0
fi
if ! part commands | cut -f 1 | grep -q -x -F -e "$2"; then
    echo "fitsowar: there is no command $2; 'fitsowar help' lists them" >&2
    exit 3
fi
part section "$2"
echo
case $shared in
*" but $2") ;;
*)
    options
    echo
    ;;
esac
echo "Exit statuses 3 to 8 are those that 'fitsowar help' lists."
