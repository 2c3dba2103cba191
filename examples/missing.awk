# What a drawing, which is read first, lacks of a program: awk -f missing.awk DRAWING PROGRAM. It wants the label of each node, once it is
# told what all leaves share, its arrows to other nodes and states (one to `again` for its own state), and the box of each state. Where several boxes have a node, one is enough.
function text_of(label) { gsub(/\\n/, " ", label); return label }
NR == FNR && /label="each step: / { sub(/.*label="each step: /, ""); sub(/\\l.*/, ""); shared = $0; next }
NR == FNR && / -> s[0-9]+stay / { sub(/.*n/, "", $1); sub(/stay/, "", $3); stay[$1, substr($3, 2)]; next }
NR == FNR && / -> / { gsub(/ s?[0-9]*n/, " "); sub(/;/, ""); sub(/ \[.*/, ""); arrow[$1, $3]; next }
NR == FNR && / \[label="/ {
    split($0, part, "\"")
    name = $1
    sub(/.*n/, "", name)
    label[name] = text_of(part[2])
    next
}
NR == FNR && /subgraph cluster_/ { box[substr($2, 9)]; next }
NR == FNR { next }
$1 == "node" && $3 == "if" {
    text = $0
    sub(/^node [0-9]+ if /, "", text)
    sub(/ then [0-9]+ else [0-9]+$/, "", text)
    if (label[$2] != text || !(($2, $(NF - 2)) in arrow) || !(($2, $NF) in arrow)) print
}
$1 == "node" && $3 == "set" {
    text = $0
    sub(/^node [0-9]+ set ?/, "", text)
    sub(/ ?go [0-9]+$/, "", text)
    n = split(text, update, /\] \[|^\[|\]$/)
    for (i = 1; i <= n; i++) if (update[i] != "" && !index(label[$2] shared, "[" update[i] "]")) print
    if (!($2 in label)) print
    go[$2] = $NF
}
$1 == "state" { entry[$2] = $4; if (!($2 in box)) print }
END { for (node in go) if (!((node, entry[go[node]]) in arrow) && !((node, go[node]) in stay)) print "node " node " go " go[node] }
