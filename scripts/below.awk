# The crates below a program and then the program, each after those that it stands on: awk -v top=NAME -f below.awk crates.txt; with
# -v whole=1 their lines of crates.txt in place of their names.
function visit(crate,    list, i, n) {
    if (crate in seen || !(crate in deps)) return
    seen[crate] = 1
    n = split(deps[crate], list, " ")
    for (i = 1; i <= n; i++) visit(list[i])
    print whole ? line[crate] : crate
}
{
    said = $0
    sub(/#.*/, "")
    at = index($0, ":")
    if (!at) next
    crate = $1
    sub(/:.*/, "", crate)
    deps[crate] = substr($0, at + 1)
    line[crate] = said
}
END {
    if (!(top in deps)) {
        print "below.awk: no crate " top > "/dev/stderr"
        exit 1
    }
    visit(top)
}
