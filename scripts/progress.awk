# The line on a build's progress: awk -v program=NAME -v seconds=SINCE_THE_START -f progress.awk PLAN LOG, from a line CRATE LINES CRATE_BELOW ..
# for each crate, the lowest first, and from what `rt ci` wrote. A crate weighs as much as it has lines. One that was proved before takes
# no time, and so will those that stand on nothing that is proved anew.
NR == FNR {
    plan[++count] = $1
    lines[$1] = $2
    below[$1] = $0
    next
}
/^rt: [a-z0-9_]+ (proved$|is kept: )/ && ($2 in lines) && !($2 in done) {
    done[$2]
    number++
    if ($3 == "proved") {
        built += lines[$2]
        anew[$2]
    }
}
END {
    if (!count) {
        print "progress.awk: no crate is given" > "/dev/stderr"
        exit 1
    }
    for (i = 1; i <= count; i++) {
        crate = plan[i]
        if (crate in done) continue
        n = split(below[crate], names, " ")
        for (j = 3; j <= n; j++) if (names[j] in anew) anew[crate]
        if (crate in anew) left += lines[crate]
    }
    line = program ": proved " number + 0 " of " count " crates"
    if (number == count) line = line ", and now the program is compiled and run"
    else if (built && seconds) {
        minutes = int(seconds / built * left / 60 + 0.5)
        line = line ", about " (minutes < 1 ? "a minute" : minutes == 1 ? "1 minute" : minutes " minutes") " left"
    } else line = line "; how long it takes is told once one is proved anew"
    print line
}
