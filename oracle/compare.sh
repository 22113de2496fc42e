# Read by the compare scripts. With FAULT=NAME in the environment the Rust
# answers with that published fault turned on.

# start PROGRAM NAME: NAME is the oracle's program.
start() {
    program=$1
    case $program in */*) ;; *) program=./$program ;; esac
    [ -x "$program" ] || { echo "$program cannot be run" >&2; exit 2; }
    oracle=$here/../target/oracle/build/release/$2
    [ -x "$oracle" ] || { echo "run $here/build first" >&2; exit 2; }
    out=$(cd "$here/../target/oracle" && pwd)
    dir=$out/compare.$$
    mkdir "$dir"
    trap 'rm -rf "$dir"' EXIT
    trap 'exit 1' HUP INT TERM
    total=0
}

# compare NAME ARGUMENT..: compares the answers to what the oracle's program
# writes when it is given the arguments.
compare() {
    name=$1
    shift
    "$oracle" "$@" > "$dir/requests"
    "$oracle" ${FAULT:+--fault "$FAULT"} answer < "$dir/requests" > "$dir/rust"
    status=0
    "$program" < "$dir/requests" > "$dir/other" || status=$?
    lines=$(wc -l < "$dir/rust")
    echo "$name: $(($(wc -l < "$dir/requests"))) lines asked, $((lines)) compared"
    if ! cmp -s "$dir/rust" "$dir/other"; then
        # A line feed more, so that an end of file differs in a line too.
        at=$( (cat "$dir/other"; echo) | cmp "$dir/rust" - 2>/dev/null | sed 's/.* line //' )
        [ -n "$at" ] || at=$((lines + 1))
        echo "$name: line $at is the first that differs; the request before it:"
        sed -n "1,${at}{/^= /!p;}" "$dir/rust" | tail -n 1
        echo "rust:  $(sed -n "${at}p" "$dir/rust")"
        echo "other: $(sed -n "${at}p" "$dir/other")"
        differs "$at"
        exit 1
    fi
    if [ $status -ne 0 ]; then
        echo "$name: $program ended with status $status"
        exit 1
    fi
    total=$((total + lines))
}

# differs LINE: keeps the blocks that the line stands in, if there are blocks.
differs() {
    grep -q '^cfg ' "$dir/requests" || return 0
    for side in rust other; do
        awk -v at="$1" '/^(vector|run) / { if (NR > at) exit; block = "" }
            { block = block $0 "\n" }
            END { printf "%s", block }' "$dir/$side" > "$out/differs.$side"
    done
    echo "the block it stands in: $out/differs.rust and $out/differs.other"
}
