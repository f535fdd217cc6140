#!/bin/sh
# Puts the program of the repository $1 and what belongs to it under the folder $2.
# Exit status 0; 3 where the words aren't in the form; 127 where something couldn't be built or written.
set -u
top=$1
own=$top/support
reference=$top/docs/COMMANDS.md

say() {
    printf 'fitsowar: %s\n' "$1" >&2
}

# Puts standard input at the place $1 under the folder, with the rights $2. What a running program has open stays.
put() {
    mkdir -p "$(dirname -- "$to/$1")" && cat > "$to/$1.new" && chmod "$2" "$to/$1.new" && mv -f "$to/$1.new" "$to/$1" || {
        say "$to/$1 could not be written"
        exit 127
    }
    echo "installed $1"
}

# The text of the commands as it is for an installed program.
text() {
    sed 's|\$ \./fitsowar|$ fitsowar|; s#| \./fitsowar#| fitsowar#' "$reference"
}

if [ "$#" -ne 2 ] || [ -z "$2" ]; then
    say "install takes one folder"
    exit 3
fi
case $2 in
/*) to=$2 ;;
-*)
    say "install takes one folder, whose name doesn't begin with -"
    exit 3
    ;;
*) to=$PWD/$2 ;;
esac
sh "$own/build.sh" "$top" build || exit 127
room=$(mktemp -d) || exit 127
trap 'rm -rf "$room"' EXIT
text > "$room/COMMANDS.md"
sh "$own/version.sh" "$top" > "$room/version"
put libexec/fitsowar/torx_tool 755 < "$top/crates/torx_tool/out/torx_tool"
put share/fitsowar/COMMANDS.md 644 < "$room/COMMANDS.md"
put share/fitsowar/help.sh 644 < "$own/help.sh"
put share/fitsowar/reference.awk 644 < "$own/reference.awk"
put share/fitsowar/version 644 < "$room/version"
sh "$own/manual.sh" "$room/COMMANDS.md" | put share/man/man1/fitsowar.1 644
sh "$own/completion.sh" bash "$reference" | put share/bash-completion/completions/fitsowar 644
sh "$own/completion.sh" zsh "$reference" | put share/zsh/site-functions/_fitsowar 644
put bin/fitsowar 755 < "$own/installed.sh"
