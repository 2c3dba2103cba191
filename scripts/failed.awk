# What a log of `rt ci` says of what was not proved: awk -f failed.awk LOG. Left out are the parts of crates that are proved and of tests
# that passed.
/^== / || /^tests: [0-9]+$/ { part = ""; inside = 1 }
inside {
    part = part $0 "\n"
    if (/^rt: .* (proved|NOT PROVED|its tests passed|its tests FAILED)$/) {
        if (/ (NOT PROVED|FAILED)$/) printf "%s", part
        inside = 0
    }
    next
}
!/^rt: .* (is kept: |ran, and wrote )/ { print }
END { if (inside) printf "%s", part }
