# Completion of fcanon-close for bash, which tools/completions wrote.
_fcanon_close() {
    local word=${COMP_WORDS[COMP_CWORD]} before=${COMP_WORDS[COMP_CWORD-1]} words=
    # bash takes --option=value for three words
    if [ "$before" = = ]; then
        before=${COMP_WORDS[COMP_CWORD-2]}
    elif [ "$word" = = ]; then
        word=
    fi
    case $COMP_CWORD.$before.$word in
    *.--variant.*) words='freecell bakers_game eight_off' ;;
    *.--most.*) ;;
    *.*.-*) words='-h --help --variant --most --collection --version' ;;
    esac
    COMPREPLY=($(compgen -W "$words" -- "$word"))
}
complete -o default -F _fcanon_close fcanon-close
