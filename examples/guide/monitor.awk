# awk -v role=ROLE -f monitor.awk TABLES LOG: each line of the log is an act, as Camera!ready or Camera?frame
$1 == "table" { inside = ($2 == role); next }
FNR == NR {
    if (inside && match($0, /\{.*\}/)) {
        arms = substr($0, RSTART + 1, RLENGTH - 2)
        head = substr($0, length($1) + 2, RSTART - length($1) - 2)
        for (count = split(arms, arm, /, /); count > 0; count--) {
            split(arm[count], part, " ")
            sub(/\(.*/, "", part[1])
            leads_to[$1, head part[1]] = part[2]
        }
    }
    next
}
!(state + 0 SUBSEP $1 in leads_to) { print "act " FNR ": state " state + 0 " has no " $1; failed = 1; exit 1 }
{ state = leads_to[state + 0, $1] }
END { if (!failed) print "the acts lead to state " state + 0 }
