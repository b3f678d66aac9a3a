# Writes the journals of a benchmark, FOLDER/1.journal and so on: a bank statement in order of days, over 28 days of
# each month of a year, or over the first DAYS of these if DAYS is over 0, and 200 expense accounts, with two postings
# in each transaction. If EVERY is over 0, the posting to the bank asserts the balance in every EVERYth transaction.
# Use: awk -v folder=FOLDER -v journals=10 -v transactions=4980 -v every=10 -v days=0 -f bench/statement.awk
function euros(cents,  size) {
    size = cents < 0 ? -cents : cents
    return sprintf("%s%d.%02d EUR", cents < 0 ? "-" : "", size / 100, size % 100)
}
BEGIN {
    all = journals * transactions
    balance = 0
    for (n = 0; n < all; n++) {
        file = folder "/" int(n / transactions) + 1 ".journal"
        day = int(n * (days > 0 ? days : 336) / all)
        cents = (n % 97 + 1) * 100 + n % 100
        balance -= cents
        claim = every > 0 && n % every == every - 1 ? " = " euros(balance) : ""
        printf "2024-%02d-%02d purchase %d\n", day / 28 + 1, day % 28 + 1, n >file
        printf "    expenses:account%03d  %s\n", n % 200, euros(cents) >file
        printf "    assets:bank  %s%s\n\n", euros(-cents), claim >file
    }
}
