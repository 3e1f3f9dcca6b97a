# Completes the words of idn2 in bash. To use it in this shell alone: source completions/idn2.bash

_idn2() {
    local word=${COMP_WORDS[COMP_CWORD]} before=${COMP_WORDS[COMP_CWORD - 1]}
    COMPREPLY=()
    # Bash makes the '=' of --option=value a word of its own.
    if [ "$word" = "=" ]; then
        word=
    elif [ "$before" = "=" ]; then
        before=${COMP_WORDS[COMP_CWORD - 2]}
    fi
    case $before in
        --variants | --check-table | --ruleset | --check-ruleset | --print-ruleset | --among)
            mapfile -t COMPREPLY < <(compgen -f -- "$word")
            return
            ;;
        --after | --limit | --tries | --steps) return ;;
    esac
    case $word in
        -*) mapfile -t COMPREPLY < <(compgen -W "$(_idn2_options)" -- "$word") ;;
    esac
}

# The options that may still be given: one mode at most, each option once, none after '--'.
_idn2_options() {
    local given=" ${COMP_WORDS[*]:1:COMP_CWORD-1} "
    local modes="-l --lookup -r --register -d --decode --variants --check-table --ruleset --check-ruleset --print-ruleset"
    local options="-N --tr46nt --usestd3asciirules --standard --explain --json --quiet -h --help -V --version" option
    case $given in
        *" -- "*) return ;;
        *" -d "* | *" --decode "*) options="--old $options" ;;
        *" --json "*) modes=${modes/ --print-ruleset/} ;;
        *" --print-ruleset "*) options=${options/ --json/} ;;
        *" --variants "* | *" --ruleset "*) modes= options="$(_idn2_beside_variants "$given") $options" ;;
    esac
    for option in $modes; do
        [[ $given = *" $option "* ]] && modes=
    done
    for option in $modes $options; do
        [[ $given = *" $option "* ]] || echo "$option"
    done
}

# What goes with --variants and --ruleset, and with what was given besides.
_idn2_beside_variants() {
    case $1 in
        *" --jump "*) ;;
        *" --among "*) echo "--after --limit --among --others" ;;
        *" --tries "* | *" --steps "*) echo "--after --limit --tries --steps" ;;
        *" --after "* | *" --limit "*) echo "--after --limit --tries --steps --among" ;;
        *) echo "--after --limit --tries --steps --among --jump" ;;
    esac
}

complete -o filenames -F _idn2 idn2
