# Completion of lls's words in bash: `. tools/lls.bash`, or a link to it in ~/.local/share/bash-completion/completions/lls.
# It serves `lls` and `./lls`.

_lls_demands='--edge --symmetry --period --exact --live --differ --but'

# The options that a command takes.
_lls_options() {
    case $1 in
    check | cnf) echo "--rule $_lls_demands --as --images --formula" ;;
    opencheck) echo "--low --high $_lls_demands --as --formula" ;;
    judge) echo "--rule $_lls_demands --as" ;;
    search) echo "--rule $_lls_demands --budget --keep --manner --first --as --images --formula --crew --turns" ;;
    least | most) echo "--rule $_lls_demands --budget --keep --manner --first --as --images --formula" ;;
    open) echo "--low --high $_lls_demands --budget --keep --manner --first --as --formula" ;;
    sat) echo '--budget --keep --manner --first' ;;
    esac
}

# The values of an option that has few of them.
_lls_values() {
    case $1 in
    --edge) echo 'closed open' ;;
    --symmetry) echo 'C1 C2 C4 D2- D2| D2\ D2/ D4+ D4x D8' ;;
    --exact) echo 'yes no' ;;
    --keep) echo 'all half' ;;
    --manner) echo 'restless steady both' ;;
    --as) echo 'rows rle cells' ;;
    --images) echo 'all one' ;;
    --formula) echo '1 2' ;;
    --rule | --low | --high) echo 'B3/S23 B36/S23 B2/S B368/S245' ;;
    esac
}

# Puts those of the words that begin with the word before the cursor into COMPREPLY.
_lls_reply() {
    local current=$1 word
    shift
    COMPREPLY=()
    for word in "$@"; do
        [[ $word != "$current"* ]] || COMPREPLY+=("$(printf %q "$word")")
    done
}

_lls() {
    local current=${COMP_WORDS[COMP_CWORD]} previous=${COMP_WORDS[COMP_CWORD - 1]} commands='check cnf judge least lrat make most open opencheck rule sat search trim'
    local first=1 words=()
    [ "${COMP_WORDS[1]-}" != --quiet ] || first=2
    [ "${COMP_WORDS[first]-}" != --as-built ] || first=$((first + 1))
    [[ ${COMP_WORDS[first]-} != --@(trimmed|race) ]] || first=$((first + 1))
    while [[ ${COMP_WORDS[first]-} = --@(seconds|from) ]]; do first=$((first + 2)); done
    [ "${COMP_WORDS[first]-}" != --unproved ] || first=$((first + 1))
    [[ ${COMP_WORDS[first]-} != --@(bare|posed) ]] || first=$((first + 1))
    # `--edge=open` comes as three words.
    if [ "$current" = = ]; then
        current=
    elif [ "$previous" = = ]; then
        previous=${COMP_WORDS[COMP_CWORD - 2]}
    fi
    if [ "$COMP_CWORD" -eq "$first" ]; then
        case $first,${COMP_WORDS[1]} in
        1,*) commands="$commands help --help --version --as-built --bare --from --page --posed --quiet --race --seconds --trimmed --unproved" ;;
        2,--quiet) commands="$commands --as-built --bare --from --posed --race --seconds --trimmed --unproved" ;;
        esac
        read -ra words <<<"$commands"
    elif [[ $previous = --help || $previous = help && $COMP_CWORD -eq 2 ]]; then
        read -ra words <<<"$commands"
    elif [[ $previous = --* ]]; then
        read -ra words <<<"$(_lls_values "$previous")"
    elif [[ $current = -* ]]; then
        read -ra words <<<"$(_lls_options "${COMP_WORDS[first]}")"
    else
        COMPREPLY=()
        return
    fi
    _lls_reply "$current" "${words[@]}"
}

complete -o default -F _lls lls
