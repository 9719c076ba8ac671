# Completion of bash for paris.

_paris_options() {
    case "$1" in
        explain) echo '--help --json --quiet --stop --workers' ;;
        prompt) echo '--help --program --quiet --workers' ;;
        page) echo '--draw --help --quiet --workers -o' ;;
        live) echo '--follow --help --port --quiet --shared --workers' ;;
        watch) echo '--help --plain --workers' ;;
        lsp) echo '--help --join --name --stdio --workers' ;;
        check) echo '--help --workers' ;;
        serve) echo '--again --audit --check --class --folder --help --history --looking --most-processors --names --origin --port --rate --seats --workers' ;;
        help) echo '--help lesson machine scripts instructions idioms people python embedding editors glossary' ;;
        *) echo '--build --desk --help --quiet --version --where --workers explain prompt page live watch lsp check serve help' ;;
    esac
}

_paris() {
    local word=${COMP_WORDS[COMP_CWORD]} before=${COMP_WORDS[COMP_CWORD - 1]} command=
    [ "$COMP_CWORD" -le 1 ] || command=${COMP_WORDS[1]}
    case "$before" in
        --workers) mapfile -t COMPREPLY < <(compgen -W "$(echo {1..16})" -- "$word") ;;
        --port) COMPREPLY=() ;;
        *)
            mapfile -t COMPREPLY < <(compgen -W "$(_paris_options "$command")" -- "$word")
            [[ $word == -* ]] || mapfile -t -O "${#COMPREPLY[@]}" COMPREPLY < <(compgen -f -- "$word")
            ;;
    esac
}

complete -o filenames -F _paris paris
