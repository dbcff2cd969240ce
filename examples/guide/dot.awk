# awk -v role=ROLE -f dot.awk TABLES: the table of the role as a graph, for dot of Graphviz
BEGIN { print "digraph machine {" }
$1 == "table" { inside = ($2 == role); found = found || inside; next }
inside && match($0, /\{.*\}/) {
    arms = substr($0, RSTART + 1, RLENGTH - 2)
    head = substr($0, length($1) + 2, RSTART - length($1) - 2)
    many = split(arms, arm, /, /)
    for (i = 1; i <= many; i++) {
        split(arm[i], part, " ")
        print "    " $1 " -> " part[2] " [label=\"" head part[1] "\"]"
    }
}
END { print "}"; if (!found) { print "no table of " role > "/dev/stderr"; exit 1 } }
