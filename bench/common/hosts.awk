# Makes a table of lines of hosts.rs, each with a number of UPDATEs before it: both times and their ratio, the time on
# interned beside that on listed, how many times as long it is as with the number before, and the peak memory of both.
BEGIN {
    print "| UPDATEs | Host | xbgp | yardstick | Ratio | Beside listed | Time grown | Peak memory |"
    print "|---|---|---|---|---|---|---|---|"
}
{
    if ($2 == "listed") listed = $3
    printf "| %d | %s | %.1f ms | %.1f ms | %.2f | %.2f |", $1, $2, $3, $5, $3 / $5, $3 / listed
    if ($2 in before) printf " %.1f times |", $3 / before[$2]
    else printf " |"
    printf " %.1f and %.1f MB |\n", $4 * 1024 / 1e6, $6 * 1024 / 1e6
    before[$2] = $3
}
