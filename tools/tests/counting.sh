# Counts for a test in sh, which sources this file in a room of its own, $room.
passed=0
failed=0
skipped=0

# Tells what is left out, and why.
skip() {
    echo "$1: skipped, $2"
    skipped=$((skipped + 1))
}

# Compares a status, and what stands in "$room/written", with a status and with the lines that are wanted.
compare() {
    if [ "$2" -eq "$3" ] && printf '%s' "$4" | cmp -s - "$room/written"; then
        echo "$1: passed"
        passed=$((passed + 1))
    else
        echo "$1: FAILED: status $2, wanted $3; wanted lines against what was written:"
        printf '%s' "$4" | diff - "$room/written"
        failed=$((failed + 1))
    fi
}

# Ends the test with the line that examples/check adds up.
finish() {
    echo "$passed passed, $failed failed$([ "$skipped" -eq 0 ] || echo ", $skipped skipped")"
    [ "$failed" -eq 0 ]
    exit
}
