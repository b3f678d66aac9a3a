#compdef treasury
# Generated from the program's help by `.ci/help`; do not edit.
# Completes the commands, options and files of treasury in zsh: copy this to a folder of $fpath, as _treasury.
local -a rows=(
    "init db=FILE help:Makes the tables of a new treasury in FILE"
    "branch db=FILE at= dry-run help:Adds a branch with an empty book"
    "branches db=FILE at= help:Reports the branches, with their locks and how many entries they have"
    "commodity db=FILE at= dry-run help:Adds a commodity in the style of a sample amount"
    "commodities db=FILE at= help:Reports the commodities, by their samples"
    "import db=FILE at= branch= dry-run if-entries= help =FILE:Enters a journal's new transactions into a branch's book"
    "accounts db=FILE at= branch= help:Reports the accounts of a branch's entries"
    "balance db=FILE at= branch= day= help:Reports a branch's balances through a day"
    "register db=FILE at= branch= account= tag= from= help:Reports an account's postings with running sums"
    "dispatch db=FILE at= id= from= to= day= amount= account= dry-run if-entries= help:Sends money from one branch to another"
    "receive db=FILE at= id= branch= day= account= part= amount= dry-run if-entries= help:Receives the money of a transfer in a branch"
    "transfers db=FILE at= day= help:Reports the transfers of which something is open through a day"
    "transit db=FILE at= day= help:Reports what is on its way between branches through a day"
    "lock db=FILE at= branch= day= dry-run if-entries= help:Locks a branch through a day: no new entries on that day or before"
    "close db=FILE at= branch= day= accounts= into= dry-run if-entries= help:Closes a branch's revenues and expenses, or other accounts, and locks it"
    "journal db=FILE at= branch= help:Reports a branch's book as a journal in hledger's format"
    "serve db=FILE port= requests= help:Answers requests over HTTP on 127.0.0.1, one connection after another"
    "run explain help:Answers the requests on standard input, in memory alone"
    "help :Print this message or the help of the given subcommand(s)"
)
local -a commands takes
local row before=${words[CURRENT-1]#--}
for row in $rows; do
    commands+=("${row%%[ :]*}:${row#*:}")
    if [[ $row == $words[2]\ * ]]; then takes=(${=${${row%%:*}#* }}); fi
done
if (( CURRENT == 2 )) && [[ $PREFIX == -* ]]; then
    compadd -- --help --version
elif (( CURRENT == 2 )) || [[ $words[2] == help ]]; then
    _describe command commands
elif [[ $PREFIX == -* ]]; then
    compadd -- --${^${${takes:#=FILE}%%=*}}
elif (( $takes[(Ie)$before=FILE] || $takes[(Ie)=FILE] && ! $takes[(Ie)$before=] )); then
    _files
fi
