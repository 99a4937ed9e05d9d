# Completion of fcanon-store for bash, which tools/completions wrote.
_fcanon_store() {
    local commands='add look solve close forget export query stats check'
    local word=${COMP_WORDS[COMP_CWORD]} before=${COMP_WORDS[COMP_CWORD-1]} command=${COMP_WORDS[1]} words=
    # after < or > comes a file: bash completes its name where nothing is offered here
    case $before in *[\<\>]*)
        COMPREPLY=()
        return
    esac
    # bash takes --option=value for three words
    if [ "$before" = = ]; then
        before=${COMP_WORDS[COMP_CWORD-2]}
    elif [ "$word" = = ]; then
        word=
    fi
    if [ "$COMP_CWORD" -eq 1 ]; then
        words="$commands -h --help --version"
    else
        case $command.$before.$word in
        *.--variant.*|*.--game.*) words='freecell bakers_game eight_off' ;;
        *.--wait.*|*.--solver.*|*.--prover.*|*.--limit.*|*.--seconds.*|*.--jobs.*|*.--unsolvable.*|*.--record.*|*.--source.*|*.--solutions.*|*.--name.*|*.--least.*|*.--most.*) ;;
        solve.*.-*) words='-h --help --solver --prover --limit --seconds --jobs --unsolvable --wait' ;;
        forget.*.-*) words='-h --help --record --source --solutions --wait' ;;
        export.*.-*) words='-h --help --name --game --least --most --solved --unsolved --wait' ;;
        query.*.-*) words='-h --help --name --game --least --most --solved --unsolved --json --wait' ;;
        stats.*.-*) words='-h --help --json --wait' ;;
        add.*.-*|look.*.-*) words='-h --help --variant --wait' ;;
        *.*.-*) words='-h --help --wait' ;;
        esac
    fi
    COMPREPLY=($(compgen -W "$words" -- "$word"))
}
complete -o default -F _fcanon_store fcanon-store
