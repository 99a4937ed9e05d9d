# Completion of fcanon for bash, which tools/completions wrote.
_fcanon() {
    local commands='show canon check group share expand unique table same symmetries count closed import deal help'
    local word=${COMP_WORDS[COMP_CWORD]} before=${COMP_WORDS[COMP_CWORD-1]} command=${COMP_WORDS[1]} words=
    # after < or > comes a file: bash completes its name where nothing is offered here
    case $before in *[\<\>]*)
        COMPREPLY=()
        return
    esac
    # bash takes --option=value for three words
    if [ "$before" = = ]; then
        before=${COMP_WORDS[COMP_CWORD-2]}
    elif [ "$word" = = ]; then
        word=
    fi
    if [ "$COMP_CWORD" -eq 1 ]; then
        words="$commands -h --help -V --version"
    else
        case $command.$before.$word in
        help.*) words=$commands ;;
        deal.--variant.*) words='freecell bakers_game' ;;
        *.--variant.*) words='freecell bakers_game eight_off' ;;
        *.--from-record.*|*.--from-byte.*) ;;
        table.*) words='--variant --any-size --from-record --from-byte --json --header -h --help' ;;
        same.*) words='--variant --any-size -h --help' ;;
        import.*) words='--variant --columns --rows --explain --strict -h --help' ;;
        deal.*) words='--variant -h --help' ;;
        count.*|closed.*) words='--variant --any-size --json -h --help' ;;
        *) words='--variant --any-size --from-record --from-byte -h --help' ;;
        esac
    fi
    COMPREPLY=($(compgen -W "$words" -- "$word"))
}
complete -o default -F _fcanon fcanon
