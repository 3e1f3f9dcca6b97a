#compdef idn2-registry
# Completes the words of idn2-registry in zsh, as _idn2-registry in a folder of $fpath.

local -a jobs common long
jobs=(
    'check:tell which labels are available' 'register:register labels that are available' 'release:release registered labels'
    'variants:list the variants of labels' 'tables-of:tell which tables admit a label' 'load:put labels into the register'
    'dump:write the registered labels' 'audit:tell which registered labels are invalid or collide'
    'change:tell what a new table changes' 'compare:tell what two tables say otherwise'
    'publish:write a table as others read it' 'join:write the table of the zone'
    'ask:answer requests' 'serve:answer over HTTP' 'check-config:check the configuration'
)
common=('--config[the configuration]:FILE:_files' '--idn2[the program]:PROGRAM:_files' '--json[answer with objects]'
    '(-h --help)'{-h,--help}'[show the options]')
long=('--resume[go on where a run was stopped]' '--scheduler[let a cluster do it]:ADDRESS: ')
if (( CURRENT == 2 )); then
    _describe job jobs
    return
fi
case $words[2] in
    check) _arguments -S : $common '--holder[who asks]:HOLDER: ' '--variants[list the variants, too]' '*:LABEL: ' ;;
    register) _arguments -S : $common '--holder[who asks]:HOLDER: ' '*:LABEL: ' ;;
    variants) _arguments -S : $common '--table[the table]:NAME: ' '--page[at most so many]:SIZE: ' \
        '--after[only those after a text]:TEXT: ' '*:LABEL: ' ;;
    load) _arguments -S : $common $long '--old[take labels of older rules, too]' '--rest[load the others]' '*:FILE:_files' ;;
    audit) _arguments -S : $common $long '--since[tell only what is new]:FILE:_files' ;;
    change) _arguments -S : $common $long '*:NAME=FILE:_files' ;;
    compare) _arguments -S : $common '*:TABLE:_files' ;;
    publish) _arguments -S : $common '--as[in which form]:FORM:(xml rfc4290 html)' '--meta[the metadata]:FILE:_files' \
        '*:TABLE:_files' ;;
    serve) _arguments -S : $common ;;
    join) _arguments -S : $common '*:NAME:_files' ;;
    *) _arguments -S : $common '*:LABEL: ' ;;
esac
