#!/bin/sh
# Prints the completion of the shell $1, bash or zsh, from the text $2 (docs/COMMANDS.md).
set -u
shell=$1
reference=$2
own=$(dirname -- "$0")

part() {
    awk -v as="$1" -f "$own/reference.awk" "$reference"
}

names() {
    part commands | cut -f 1 | tr '\n' ' '
}

# The options of the command $1, or with a second word the branches of a `case` on their values.
options_of() {
    part options | awk -v of="$1" '$1 == of { printf "%s ", $2 }'
}

# The branches of a shell's `case` on an option that has a value: $1 stands before a list of words, $2 after it.
values() {
    part options | sort -u -k 2,2 | awk -v before="$1" -v after="$2" -v nothing="$3" '
        $3 == "flag" || $3 == "FILE" { next }
        $3 ~ /\|/ { gsub(/\|/, " ", $3); print "    " $2 ") " before $3 after " ;;"; next }
        { print "    " $2 ") " nothing " ;;" }'
}

bash_completion() {
    cat <<END
# bash completion for fitsowar
_fitsowar() {
    local word=\${COMP_WORDS[COMP_CWORD]} before=\${COMP_WORDS[COMP_CWORD - 1]} words=
    COMPREPLY=()
    # bash cuts a word at =
    if [[ \$word == '=' ]]; then
        word=
    elif [[ \$before == '=' ]]; then
        before=\${COMP_WORDS[COMP_CWORD - 2]}
    fi
    if ((COMP_CWORD == 1)); then
        COMPREPLY=(\$(compgen -W "$(names)help install --help --version" -- "\$word"))
        return
    fi
    case \$before in
$(values 'COMPREPLY=($(compgen -W "' '" -- "$word")); return' 'compopt +o default; return')
    --inputs) return ;;
    esac
    if [[ \${COMP_WORDS[1]} == help ]]; then
        COMPREPLY=(\$(compgen -W "$(names)" -- "\$word"))
        return
    fi
    [[ \$word == -* ]] || return
    case \${COMP_WORDS[1]} in
END
    for name in $(names); do
        printf '    %s) words="%s--help" ;;\n' "$name" "$(options_of "$name")"
    done
    cat <<'END'
    esac
    COMPREPLY=($(compgen -W "$words" -- "$word"))
}
# with no answer the names of files are completed
complete -o default -F _fitsowar fitsowar
END
}

zsh_completion() {
    cat <<END
#compdef fitsowar
# zsh completion for fitsowar
_fitsowar() {
    local before=\$words[CURRENT-1]
    local -a commands options
    commands=(
END
    part commands | sed -e "s/'/'\\\\''/g" -e "s/:/\\\\:/g" | awk -F '\t' '{ print "        \047" $1 ":" $2 "\047" }'
    cat <<END
        'help:Prints the commands, or what one of them does.'
        'install:Puts the program and its texts under a folder.'
    )
    if ((CURRENT == 2)); then
        _describe command commands
        compadd -- --help --version
        return
    fi
    case \$before in
$(values 'compadd -- ' '; return' '_message number; return')
    --inputs) _files; return ;;
    esac
    case \$words[2] in
    help) compadd -- $(names); return ;;
END
    for name in $(names); do
        printf '    %s) options=(%s--help) ;;\n' "$name" "$(options_of "$name")"
    done
    cat <<'END'
    esac
    if [[ $PREFIX == -* ]]; then
        compadd -a options
    else
        _files
    fi
}
_fitsowar "$@"
END
}

case $shell in
bash) bash_completion ;;
zsh) zsh_completion ;;
*) exit 2 ;;
esac
