# What zsh completes some lines to, for each its matches and then `end`: zsh -f tests/complete.zsh COMPLETIONS LINE..
# Completions work only in the editor of a terminal, so a second zsh runs in one.
zmodload zsh/zpty
inner='
PS1= PS2=
autoload -Uz compinit
compinit -u -D
functions[_idn2]=$(<$completions)
compdef _idn2 idn2
# A call that adds matches; the others collect them.
compadd() {
    local -a matches
    if [[ ${@[1,(i)(-|--)]} != *-(O|A|D)\ * ]]; then
        builtin compadd -A matches "$@"
        (( $#matches )) && print -rl -- match:${^matches}
    fi
    builtin compadd "$@"
}
show() { print; _main_complete; compstate[insert]= compstate[list]=; print end: }
zle -C show complete-word show
bindkey "^X" show
print ready:
'
zpty shell "completions=${(q)1} zsh -f -i"
zpty -w shell "eval ${(q)inner}"
zpty -r -m shell said $'*ready:\r\n*'
for line in "${@[2,-1]}"; do
    zpty -n -w shell "$line"$'\C-x'
    zpty -r -m shell said '*end:*'
    for match in ${(f)said}; do
        [[ $match = match:* ]] && print -r -- ${${match#match:}%$'\r'}
    done
    print end
    zpty -n -w shell $'\C-u'
done
zpty -d shell
