# Made by extras/make from docs/uxrun.md: completion of uxrun in bash.
_uxrun() {
    local word=${COMP_WORDS[COMP_CWORD]} before=${COMP_WORDS[COMP_CWORD-1]}
    case $before in
        --order|--audit|--holders|--dot|--html|--limit) COMPREPLY=(); return ;;
    esac
    if [[ $word == -* ]]; then
        mapfile -t COMPREPLY < <(compgen -W '--threads --order --orders --echo --json --text --words --follow --expect --tap --update --check --audit --holders --dot --sequence --html --each --limit --outcomes --help --version' -- "$word")
    else
        mapfile -t COMPREPLY < <(compgen -d -- "$word"; compgen -f -X '!*.ux' -- "$word")
    fi
}
complete -o filenames -F _uxrun uxrun
