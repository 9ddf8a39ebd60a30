# LKH's PI_FILE to potentials; the scale is LKH's PRECISION: -v scale=N, which is 100 by itself
function fail(words) {
    print "lkh-pi: " words | "cat -v 1>&2"
    exit status = 1
}
BEGIN {
    if (scale == "")
        scale = 100
    if (scale !~ /^[0-9]+$/ || scale + 0 < 1)
        fail("the scale is a whole number from 1 on, and this is none: " scale)
}
{ sub(/\r$/, "") } # lines of Windows end in bytes 13 and 10
NF == 0 { next }
!started {
    started = 1
    if (NF != 1 || $1 !~ /^[0-9]+$/)
        fail("line " NR ": the number of nodes is wanted: " $0)
    n = $1 + 0
    next
}
$1 == -1 || $1 == "EOF" { exit }
NF != 2 || $1 !~ /^[0-9]+$/ || $2 !~ /^-?[0-9]+$/ { fail("line " NR ": a node and its number are wanted: " $0) }
$1 + 0 < 1 || $1 + 0 > n { fail("line " NR ": nodes are 1 to " n ": " $0) }
seen[$1 + 0]++ { fail("line " NR ": node " $1 " comes twice") }
{ text = text $1 " " $2 "\n"; found++ }
END {
    if (status)
        exit status
    if (!n || found != n)
        fail("the first line says " n + 0 " nodes, and " found + 0 " follow")
    printf "TYPE : POTENTIALS\nSCALE : %s\nDIMENSION : %d\nNODE_POTENTIAL_SECTION\n%sEOF\n", scale, n, text
}
