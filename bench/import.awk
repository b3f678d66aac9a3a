# Prints the request that imports a journal, byte for byte, into the branch north.
# Use: awk -f bench/import.awk JOURNAL
BEGIN {
    RS = "\001"
    printf "{\"do\":\"import\",\"branch\":\"north\",\"journal\":\""
}
{
    gsub(/\\/, "&&")
    gsub(/"/, "\\\\&")
    gsub(/\n/, "\\n")
    gsub(/\r/, "\\r")
    gsub(/\t/, "\\t")
    gsub(/\f/, "\\f")
    printf "%s", $0
}
END { print "\"}" }
