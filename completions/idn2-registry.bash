# Completes the words of idn2-registry in bash. To use it in this shell alone: source completions/idn2-registry.bash

_idn2_registry() {
    local word=${COMP_WORDS[COMP_CWORD]} before=${COMP_WORDS[COMP_CWORD - 1]} job=${COMP_WORDS[1]}
    COMPREPLY=()
    case $before in
        --config | --idn2 | --since | --meta) mapfile -t COMPREPLY < <(compgen -f -- "$word"); return ;;
        --as) mapfile -t COMPREPLY < <(compgen -W "xml rfc4290 html" -- "$word"); return ;;
        --holder | --table | --page | --after | --scheduler) return ;;
    esac
    if [ "$COMP_CWORD" -eq 1 ]; then
        mapfile -t COMPREPLY < <(compgen -W "check register release variants tables-of load dump audit change compare join publish
            ask serve check-config --help" -- "$word")
        return
    fi
    local options="--config --idn2 --json --help"
    case $job in
        check) options+=" --holder --variants" ;;
        register) options+=" --holder" ;;
        variants) options+=" --table --page --after" ;;
        load) options+=" --old --rest --resume --scheduler" ;;
        audit) options+=" --since --resume --scheduler" ;;
        change) options+=" --resume --scheduler" ;;
        publish) options+=" --as --meta" ;;
    esac
    case $word in
        -*) mapfile -t COMPREPLY < <(compgen -W "$options" -- "$word") ;;
        *)
            case $job in
                load | compare | join | publish) mapfile -t COMPREPLY < <(compgen -f -- "$word") ;;
                change) mapfile -t COMPREPLY < <(compgen -f -P "${word%%=*}=" -- "${word#*=}") ;;
            esac
            ;;
    esac
}

complete -o filenames -F _idn2_registry idn2-registry
