# Completion of fcanon-many for bash, which tools/completions wrote.
_fcanon_many() {
    local word=${COMP_WORDS[COMP_CWORD]} before=${COMP_WORDS[COMP_CWORD-1]} words=
    # bash takes --option=value for three words
    if [ "$before" = = ]; then
        before=${COMP_WORDS[COMP_CWORD-2]}
    elif [ "$word" = = ]; then
        word=
    fi
    case $COMP_CWORD.$before.$word in
    1.*) words='group share unique' ;;
    5.*) words='parallel slurm' ;;
    esac
    COMPREPLY=($(compgen -W "$words" -- "$word"))
}
complete -o default -F _fcanon_many fcanon-many
