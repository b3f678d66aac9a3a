# Generated from the program's help by `.ci/help`; do not edit.
# Completes the commands, options and files of treasury in fish: copy it to ~/.config/fish/completions/treasury.fish.
function __treasury_has
    set -l words (commandline -opc)
    test "$words[2]" = $argv[1]
end
# __treasury NAME DOES WORD..: a command, what it does, and what it takes
function __treasury
    complete -c treasury -n 'test (count (commandline -opc)) = 1 || __treasury_has help' -a $argv[1] -d $argv[2]
    for word in $argv[3..]
        set -l name -l (string split = -- $word)[1]
        switch $word
            case '=FILE'
                complete -c treasury -n "__treasury_has $argv[1]" -F
            case '*=FILE'
                complete -c treasury -n "__treasury_has $argv[1]" $name -r -F
            case '*='
                complete -c treasury -n "__treasury_has $argv[1]" $name -x
            case '*'
                complete -c treasury -n "__treasury_has $argv[1]" $name
        end
    end
end
complete -c treasury -e
complete -c treasury -f
complete -c treasury -n 'test (count (commandline -opc)) = 1' -l help
complete -c treasury -n 'test (count (commandline -opc)) = 1' -l version
__treasury init "Makes the tables of a new treasury in FILE" db=FILE help
__treasury branch "Adds a branch with an empty book" db=FILE at= dry-run help
__treasury branches "Reports the branches, with their locks and how many entries they have" db=FILE at= help
__treasury commodity "Adds a commodity in the style of a sample amount" db=FILE at= dry-run help
__treasury commodities "Reports the commodities, by their samples" db=FILE at= help
__treasury import "Enters a journal's new transactions into a branch's book" db=FILE at= branch= dry-run if-entries= help =FILE
__treasury accounts "Reports the accounts of a branch's entries" db=FILE at= branch= help
__treasury balance "Reports a branch's balances through a day" db=FILE at= branch= day= help
__treasury register "Reports an account's postings with running sums" db=FILE at= branch= account= tag= from= help
__treasury dispatch "Sends money from one branch to another" db=FILE at= id= from= to= day= amount= account= dry-run if-entries= help
__treasury receive "Receives the money of a transfer in a branch" db=FILE at= id= branch= day= account= part= amount= dry-run if-entries= help
__treasury transfers "Reports the transfers of which something is open through a day" db=FILE at= day= help
__treasury transit "Reports what is on its way between branches through a day" db=FILE at= day= help
__treasury lock "Locks a branch through a day: no new entries on that day or before" db=FILE at= branch= day= dry-run if-entries= help
__treasury close "Closes a branch's revenues and expenses, or other accounts, and locks it" db=FILE at= branch= day= accounts= into= dry-run if-entries= help
__treasury journal "Reports a branch's book as a journal in hledger's format" db=FILE at= branch= help
__treasury serve "Answers requests over HTTP on 127.0.0.1, one connection after another" db=FILE port= requests= help
__treasury run "Answers the requests on standard input, in memory alone" explain help
__treasury help "Print this message or the help of the given subcommand(s)"
