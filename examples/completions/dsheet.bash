# The completions for bash of dsheet: made by tools/completions.py of what the program says by --help.
# shellcheck shell=bash disable=SC2207
_dsheet() {
    local word=${COMP_WORDS[COMP_CWORD]} before=${COMP_WORDS[COMP_CWORD - 1]}
    local options='' files='' others='' takes_words=
    COMPREPLY=()
    if [ "$COMP_CWORD" = 1 ]; then
        COMPREPLY=($(compgen -W "run report serve explore trace connect check log export import compact backup help --help --version" -- "$word"))
        return
    fi
    case ${COMP_WORDS[1]} in
        run)
            options='--stops --from --to --strict --brief --json --a1 --help'
            others='--from --to'
            takes_words=1
            ;;
        report)
            options='--labels --json --a1 --help'
            takes_words=1
            ;;
        serve)
            options='--listen --columns --rows --processes --workers --sessions --forever --http --token-file --open --at-once --idle --store --log --help'
            files='--token-file --store'
            others='--listen --columns --rows --processes --workers --sessions --http --at-once --idle --log'
            ;;
        explore)
            options='--crashes --stops --evictions --most --summary --json --show --trace --help'
            others='--most --show --trace'
            takes_words=1
            ;;
        trace)
            options='--brief --help'
            takes_words=1
            ;;
        connect)
            options='--process --timeout --token-file --key --a1 --help'
            files='--token-file'
            others='--process --timeout --key'
            takes_words=1
            ;;
        check)
            options='--help'
            takes_words=1
            ;;
        log)
            options='--cell --at --values --help'
            others='--cell --at'
            takes_words=1
            ;;
        export)
            options='--until --csv --values --json --help'
            others='--until'
            takes_words=1
            ;;
        import)
            options='--csv --a1 --help'
            takes_words=1
            ;;
        compact)
            options='--help'
            takes_words=1
            ;;
        backup)
            options='--help'
            takes_words=1
            ;;
        help) options='run report serve explore trace connect check log export import compact backup' ;;
    esac
    if [[ " $files " == *" $before "* ]]; then
        COMPREPLY=($(compgen -f -- "$word"))
    elif [[ " $others " == *" $before "* ]]; then
        return
    elif [[ $word == -* || -z $takes_words ]]; then
        COMPREPLY=($(compgen -W "$options" -- "$word"))
    else
        COMPREPLY=($(compgen -f -- "$word"))
    fi
}
complete -o filenames -F _dsheet dsheet
