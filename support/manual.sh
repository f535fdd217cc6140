#!/bin/sh
# Prints the manual page in man format, from the text $1 (docs/COMMANDS.md).
set -u
reference=$1
own=$(dirname -- "$0")

cat <<'END'
.TH FITSOWAR 1
.SH NAME
fitsowar \- check conformance by ioco and uioco
.SH SYNOPSIS
END
sed -n 's/^## `\([a-z].*\)`$/\1/p' "$reference" | sed -e 's/-/\\-/g' -e 's/^\([a-z]*\) \(.*\)/.B fitsowar \1\n\2\n.br/'
cat <<'END'
.B fitsowar help
[COMMAND]
.br
.B fitsowar \-\-version
.SH DESCRIPTION
Fitsowar checks whether an implementation conforms to its specification, where both are labelled transition systems
in files, by the relations ioco and uioco (Jan Tretmans, "Model Based Testing with Labelled Transition Systems",
2008). Examples run at the top of its repository.
END
awk -v as=manual -f "$own/reference.awk" "$reference"
