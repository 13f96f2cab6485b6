# Completion of `suit` and `ask` in bash: source scripts/completion.bash
# shellcheck shell=bash

_suit_words() {
    local typed=${COMP_WORDS[COMP_CWORD]}
    if [ "$COMP_CWORD" -eq 1 ]; then
        mapfile -t COMPREPLY < <(compgen -W 'solve check lines weigh table make trial' -- "$typed")
    fi
}

_ask_words() {
    local typed=${COMP_WORDS[COMP_CWORD]} before=${COMP_WORDS[COMP_CWORD - 1]}
    case $before in
    table | --answer) mapfile -t COMPREPLY < <(compgen -f -- "$typed") ;;
    install) mapfile -t COMPREPLY < <(compgen -d -- "$typed") ;;
    help) mapfile -t COMPREPLY < <(compgen -W 'solve check lines weigh table make trial' -- "$typed") ;;
    *)
        if [ "$COMP_CWORD" -eq 1 ]; then
            mapfile -t COMPREPLY < <(compgen -W 'help table prove version install' -- "$typed")
        elif [ "$COMP_CWORD" -gt 2 ]; then
            mapfile -t COMPREPLY < <(compgen -W 'tricks --answer --seconds' -- "$typed")
        fi ;;
    esac
}

complete -o default -F _suit_words suit ./suit
complete -o default -F _ask_words ask ./ask
