# Completes the words of idn2-registry in fish. To use it in this shell alone: source completions/idn2-registry.fish

# An option or a word of some jobs.
function __idn2_registry_of
    complete -c idn2-registry -n "__fish_seen_subcommand_from $argv[1]" $argv[2..]
end

complete -c idn2-registry -f
set -l jobs check register release variants tables-of load dump audit change compare join publish ask serve check-config
set -l meanings 'Tell which labels are available' 'Register labels that are available' 'Release registered labels' \
    'List the variants of labels' 'Tell which tables admit a label' 'Put labels into the register' \
    'Write the registered labels' 'Tell which registered labels are invalid or collide' 'Tell what a new table changes' \
    'Tell what two tables say otherwise' 'Write the table of the zone' 'Write a table as others read it' \
    'Answer requests' 'Answer over HTTP' 'Check the configuration'
for number in (seq (count $jobs))
    complete -c idn2-registry -n "not __fish_seen_subcommand_from $jobs" -a $jobs[$number] -d $meanings[$number]
end
complete -c idn2-registry -s h -l help -d 'Show the options'
__idn2_registry_of "$jobs" -l config -r -F -d 'The configuration'
__idn2_registry_of "$jobs" -l json -d 'Answer with objects'
__idn2_registry_of "$jobs" -l idn2 -r -F -d 'The program'
__idn2_registry_of 'check register' -l holder -x -d 'Who asks'
__idn2_registry_of check -l variants -d 'List the variants, too'
__idn2_registry_of variants -l table -x -d 'The table'
__idn2_registry_of variants -l page -x -d 'At most so many'
__idn2_registry_of variants -l after -x -d 'Only those after a text'
__idn2_registry_of 'load audit change' -l resume -d 'Go on where a run was stopped'
__idn2_registry_of 'load audit change' -l scheduler -x -d 'Let a cluster do it'
__idn2_registry_of audit -l since -r -F -d 'Tell only what is new'
__idn2_registry_of load -l old -d 'Take labels of older rules, too'
__idn2_registry_of load -l rest -d 'Load the others'
__idn2_registry_of 'load change compare join publish' -F
__idn2_registry_of publish -l as -x -a 'xml rfc4290 html' -d 'In which form'
__idn2_registry_of publish -l meta -r -F -d 'The metadata'
