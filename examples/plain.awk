# A plain checker of refutations, which shares nothing with tsl: reads a formula in conjunctive normal form, the line 'lrat' and a log, and
# prints 'verified' where some step derives the empty clause and the hints of every step up to it show its clause: with all its literals
# made false, each hint's clause has one literal left, which is made true, until one has none. Else one line says which step fails.
# usage: awk -f examples/plain.awk FILE
function failed(why) { print "step " $1 ": " why; done = 1; exit 1 }
# What is left of a clause: its one literal that is not false, 0 where it has none, 'many' where it has more or a true one.
function left_of(clause, i, count, word, left) {
    count = split(clause, word, " ")
    left = 0
    for (i = 1; i <= count; i++) {
        if (truth[word[i]] == 1) return "many"
        if (truth[word[i]] == -1 || word[i] == left) continue
        if (left) return "many"
        left = word[i]
    }
    return left
}
function set(literal) { truth[literal] = 1; truth[-literal] = -1 }
$1 == "c" || NF == 0 { next }
!in_log && $1 == "p" { next }
!in_log && $1 == "lrat" { in_log = 1; next }
!in_log {
    for (i = 1; i <= NF; i++) {
        if ($i == 0) { clauses[++clause_count] = text; text = "" }
        else text = text " " $i
    }
    next
}
$2 == "d" { next }
{
    split("", truth)
    text = ""
    for (i = 2; $i != 0; i++) { text = text " " $i; set(-$i) }
    shown = 0
    for (i++; $i != 0 && !shown; i++) {
        if (!($i in clauses)) failed("no clause " $i)
        left = left_of(clauses[$i])
        if (left == "many") failed("the clause of hint " $i " has more than one literal left")
        if (left == 0) shown = 1
        else set(left)
    }
    if (!shown) failed("the hints do not show its clause")
    clauses[$1] = text
    if (text == "") { print "verified"; done = 1; exit 0 }
}
END { if (!done) print "no step has the empty clause" }
