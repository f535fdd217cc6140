#!/bin/sh
# An adapter in shell: a coffee machine that gives a tea for the first coin and keeps the others.
# Words: none for the machine, or `milk` for one with a fault: it gives milk.
drink=${1:-tea}
while IFS= read -r label; do
    case $label in
    '?coin')
        if [ -n "$drink" ]; then
            printf '!%s\n' "$drink"
            drink=
        fi
        ;;
    *)
        echo "coffee.sh: no input: $label" >&2
        exit 1
        ;;
    esac
done
