# Generated from the program's help by `.ci/help`; do not edit.
# Completes the commands, options and files of treasury in bash: put `. completion.bash` into ~/.bashrc.
_treasury() {
    local it takes= words=
    local commands="init branch branches commodity commodities import accounts balance register dispatch receive
        transfers transit lock close journal serve run help"
    case ${COMP_WORDS[1]} in
    init) takes="db=FILE help" ;;
    branch) takes="db=FILE at= dry-run help" ;;
    branches) takes="db=FILE at= help" ;;
    commodity) takes="db=FILE at= dry-run help" ;;
    commodities) takes="db=FILE at= help" ;;
    import) takes="db=FILE at= branch= dry-run if-entries= help =FILE" ;;
    accounts) takes="db=FILE at= branch= help" ;;
    balance) takes="db=FILE at= branch= day= help" ;;
    register) takes="db=FILE at= branch= account= tag= from= help" ;;
    dispatch) takes="db=FILE at= id= from= to= day= amount= account= dry-run if-entries= help" ;;
    receive) takes="db=FILE at= id= branch= day= account= part= amount= dry-run if-entries= help" ;;
    transfers) takes="db=FILE at= day= help" ;;
    transit) takes="db=FILE at= day= help" ;;
    lock) takes="db=FILE at= branch= day= dry-run if-entries= help" ;;
    close) takes="db=FILE at= branch= day= accounts= into= dry-run if-entries= help" ;;
    journal) takes="db=FILE at= branch= help" ;;
    serve) takes="db=FILE port= requests= help" ;;
    run) takes="explain help" ;;
    help) takes="" ;;
    esac
    if [ "$COMP_CWORD" = 1 ]; then
        words="$commands --help --version"
    elif [ "${COMP_WORDS[1]}" = help ]; then
        words=$commands
    elif [[ $2 == -* ]]; then
        for it in ${takes% =FILE}; do words+=" --${it%%=*}"; done
    fi
    COMPREPLY=()
    if [ "$words" ]; then
        mapfile -t COMPREPLY < <(compgen -W "$words" -- "$2")
    elif [[ " $takes " != *" ${3#--}= "* ]]; then
        compopt -o filenames 2>/dev/null
        mapfile -t COMPREPLY < <(compgen -f -- "$2")
    fi
}
complete -F _treasury treasury
