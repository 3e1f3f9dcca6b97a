#compdef idn2
# Completes the words of idn2 in zsh, as _idn2 in a folder of $fpath.

local modes='-l --lookup -r --register -d --decode --variants --check-table --ruleset --check-ruleset --print-ruleset'
local -a listing
# What goes with --variants and --ruleset; each begins with what it bars.
(( $words[(I)--(variants|ruleset)(|=*)] )) && listing=(
    '(--jump --tries --steps)--among=[With --variants: list labels in FILE that collide]:FILE:_files'
    '(--among --after --limit --tries --steps)--jump[With --variants: answer LABEL TAB TEXT by a label]'
    '(--jump)--after=[With --variants: list only variants after TEXT]:TEXT: '
    '(--jump)--limit=[With --variants: stop after N variants of a line]:N: '
    '(--jump --among)--tries=[With --variants: stop after N tested labels]:N: '
    '(--jump --among)--steps=[With --variants: stop after N steps of the search]:N: '
)
# What goes with --among, and with --decode.
(( $words[(I)--among(|=*)] )) && listing+=('--others[With --among: leave out the label itself]')
(( $words[(I)(-d|--decode)] )) && listing+=('--old[With --decode: print lines of registered labels]')
_arguments -S : $listing \
    "($modes)"{-l,--lookup}'[Convert each name for a query; the default]' \
    "($modes)"{-r,--register}'[Test each line, one label, and print its A-label]' \
    "($modes)"{-d,--decode}'[Turn the A-labels of each name into U-labels]' \
    "($modes)--variants=[List each label's variants by the table in FILE]:FILE:_files" \
    "($modes)--check-table=[Print the pairs that the table in FILE lacks]:FILE:_files" \
    "($modes)--ruleset=[List each label's variants by the ruleset in FILE]:FILE:_files" \
    "($modes)--check-ruleset=[Print the pairs that the ruleset in FILE lacks]:FILE:_files" \
    "($modes --json)--print-ruleset=[Print what the ruleset in FILE says; not as JSON]:FILE:_files" \
    '(-N --tr46nt)'{-N,--tr46nt}'[Non-transitional lookup, which lookup does anyway]' \
    '--usestd3asciirules[Lookup refuses ASCII but letters, digits, hyphens]' \
    "--standard[Test labels by Unicode's own data, not by lists]" \
    '--explain[Messages of refused lines go on with the cause]' \
    '(--print-ruleset)--json[Answer by objects of JSON, with causes of refusals]' \
    '--quiet[Accepted; there is no banner]' \
    '(-h --help)'{-h,--help}'[Print help]' \
    '(-V --version)'{-V,--version}'[Print version]' \
    '*:STRING: '
