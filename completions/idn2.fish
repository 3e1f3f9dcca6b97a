# Completes the words of idn2 in fish. To use it in this shell alone: source completions/idn2.fish

# Whether one of these options is given before the cursor, apart from that of which the value is completed.
function __idn2_has
    set -l given (commandline -opc)
    switch "$given[-1]"
        case --variants --check-table --ruleset --check-ruleset --print-ruleset --among --after --limit --tries --steps
            set -e given[-1]
    end
    for word in (string replace -r '^(--[^=]*)=.*' '$1' -- $given)
        contains -- $word $argv; and return 0
    end
    return 1
end

# An option that none of some others stands beside, itself included.
function __idn2_option
    set -l barring (string split ' ' -- $argv[1])
    complete -c idn2 -n "not __idn2_has $barring" $argv[2..]
end

# The same, with --variants or --ruleset.
function __idn2_listing_option
    set -l barring (string split ' ' -- $argv[1])
    complete -c idn2 -n "__idn2_has --variants --ruleset; and not __idn2_has $barring" $argv[2..]
end

# The same, with --among or with --decode.
function __idn2_option_beside
    complete -c idn2 -n "__idn2_has $argv[1]; and not __idn2_has $argv[2]" $argv[3..]
end

complete -c idn2 -f

set -l modes '-l --lookup -r --register -d --decode --variants --check-table --ruleset --check-ruleset --print-ruleset'
__idn2_option $modes -s l -l lookup -d 'Convert each name for a query; the default'
__idn2_option $modes -s r -l register -d 'Test each line, one label, and print its A-label'
__idn2_option $modes -s d -l decode -d 'Turn the A-labels of each name into U-labels'
__idn2_option $modes -l variants -r -F -d "List each label's variants by the table in FILE"
__idn2_option $modes -l check-table -r -F -d 'Print the pairs that the table in FILE lacks'
__idn2_option $modes -l ruleset -r -F -d "List each label's variants by the ruleset in FILE"
__idn2_option $modes -l check-ruleset -r -F -d 'Print the pairs that the ruleset in FILE lacks'
__idn2_option "$modes --json" -l print-ruleset -r -F -d 'Print what the ruleset in FILE says; not as JSON'

__idn2_listing_option '--among --jump --tries --steps' -l among -r -F -d 'With --variants: list labels in FILE that collide'
__idn2_listing_option '--jump --among --after --limit --tries --steps' -l jump \
    -d 'With --variants: answer LABEL TAB TEXT by a label'
__idn2_option_beside --among --others -l others -d 'With --among: leave out the label itself'
__idn2_option_beside '-d --decode' --old -l old -d 'With --decode: print lines of registered labels'
__idn2_listing_option '--after --jump' -l after -x -d 'With --variants: list only variants after TEXT'
__idn2_listing_option '--limit --jump' -l limit -x -d 'With --variants: stop after N variants of a line'
__idn2_listing_option '--tries --jump --among' -l tries -x -d 'With --variants: stop after N tested labels'
__idn2_listing_option '--steps --jump --among' -l steps -x -d 'With --variants: stop after N steps of the search'

__idn2_option '-N --tr46nt' -s N -l tr46nt -d 'Non-transitional lookup, which lookup does anyway'
__idn2_option --usestd3asciirules -l usestd3asciirules -d 'Lookup refuses ASCII but letters, digits, hyphens'
__idn2_option --standard -l standard -d "Test labels by Unicode's own data, not by lists"
__idn2_option --explain -l explain -d 'Messages of refused lines go on with the cause'
__idn2_option '--json --print-ruleset' -l json -d 'Answer by objects of JSON, with causes of refusals'
__idn2_option --quiet -l quiet -d 'Accepted; there is no banner'
__idn2_option '-h --help' -s h -l help -d 'Print help'
__idn2_option '-V --version' -s V -l version -d 'Print version'
