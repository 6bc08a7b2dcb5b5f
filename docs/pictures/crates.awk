# crates.txt as a graph: an arrow from each crate to those that it is built on
BEGIN {
    print "digraph crates {"
    print "  graph [rankdir=TB, fontname=\"DejaVu Sans\", bgcolor=white, nodesep=0.35, ranksep=0.5]"
    print "  node [shape=box, style=\"filled,rounded\", fillcolor=\"#cfe2f3\", fontname=\"DejaVu Sans\", fontsize=13]"
    print "  edge [color=\"#555555\", arrowsize=0.7]"
    print "  node [fillcolor=\"#d9ead3\"] answers labelstep stores"
    print "  node [fillcolor=\"#fce5cd\"] capi cases"
    print "  node [fillcolor=\"#cfe2f3\"]"
}
/^[a-z]/ { # NAME, what it is where that is told, a colon, and the crates that it is built on
    name = $0; sub(/[ :].*/, "", name)
    sub(/^[^:]*:/, "")
    print "  " name
    for (i = 1; i <= NF; i++) print "  " name " -> " $i
}
END { print "}" }
