#!/bin/sh
# Runs the proved program on the words that it is given, with the program's exit status; help and --version are
# answered here. It was installed by `fitsowar install`, and finds what belongs to it beside its own folder.
file=$0
while [ -h "$file" ]; do
    next=$(ls -ld -- "$file" | sed 's/^.* -> //')
    case $next in
    /*) file=$next ;;
    *) file=$(dirname -- "$file")/$next ;;
    esac
done
top=$(CDPATH='' cd -- "$(dirname -- "$file")/.." && pwd) || exit 127
share=$top/share/fitsowar
[ "$#" -eq 2 ] && case $2 in
--help | -h) exec sh "$share/help.sh" "$share/COMMANDS.md" "$1" ;;
esac
if [ "$#" -eq 0 ]; then
    # (status 0 would say that something conforms)
    sh "$share/help.sh" "$share/COMMANDS.md"
    exit 3
fi
case $1 in
help | --help | -h)
    shift
    exec sh "$share/help.sh" "$share/COMMANDS.md" "$@"
    ;;
--version) exec cat "$share/version" ;;
install)
    echo "fitsowar: install is a word of the script in the repository" >&2
    exit 3
    ;;
esac
exec "$top/libexec/fitsowar/torx_tool" "$@"
