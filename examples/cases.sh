# Read by `check`: each row of the tables in `cases` is one run of a program; README.md says what a row has. The programs stand already where
# `check` built them, so a row costs one process and what compares its answer.
. "$here/makers"
tab=$(printf '\t')
blanks=$IFS
# written FIELD: writes the text that a field of a row stands for.
written() {
    case $1 in
    -) ;;
    '$ '*) (cd "$here" && eval "${1#??}") </dev/null ;;
    *) printf %b "$1" ;;
    esac
}
# meets FIELD STREAM: what the program wrote to that stream is what the field says.
meets() {
    case $1 in
    -) [ ! -s "$made/$2" ] ;;
    '$ '*) (cd "$here" && eval "${1#??}") <"$made/$2" >/dev/null ;;
    *) printf %b "$1" >"$made/wanted" && cmp -s "$made/wanted" "$made/$2" ;;
    esac
}
# shown FIELD STREAM: both sides of a difference, as far as a reader wants them.
shown() {
    case $1 in
    '$ '*) echo "$2, of which '${1#??}' does not hold:" && cat "$made/$2" ;;
    *) written "$1" >"$made/wanted"; diff "$made/wanted" "$made/$2" ;;
    esac | head -n 12 | cut -c 1-200
}
for table in "$here"/cases/*; do
    program=tsl
    [ "${table##*/}" = solve ] && program=solve
    line=0
    while IFS= read -r row || [ -n "$row" ]; do
        line=$((line + 1))
        case $row in '' | '#'*) continue ;; esac
        set -f
        IFS=$tab
        # shellcheck disable=SC2086
        set -- $row
        IFS=$blanks
        status=$1 words=$2 out=$4 err=$5
        if [ $# -ne 5 ]; then
            false
            told "case ${table##*/}:$line: a row of $# fields"
            set +f
            continue
        fi
        written "$3" >"$made/in"
        [ "$words" = - ] && words=
        eval "set -- $words"
        set +f
        "$here/../out/$program" "$@" <"$made/in" >"$made/out" 2>"$made/err"
        got=$?
        if [ "$got" = "$status" ] && meets "$out" out && meets "$err" err; then
            passed=$((passed + 1))
        else
            failed=$((failed + 1))
            echo "case ${table##*/}:$line: $program $words: status $got, wanted $status"
            meets "$out" out || shown "$out" out
            meets "$err" err || shown "$err" err
        fi
    done <"$table"
done
