# shellcheck shell=bash
# Sourced by the gates, `run` and `quick`: goes to the top of the repository, refuses another Rattle kit than the one that the
# repository is proved with, and has how a part is run and counted. Each part is run whatever failed before.
tried=0
passed=0
failed=0
status=0
# The library that is tested is the one that is built here.
unset MILESTARLING_LIB

part() { # COMMAND...
    echo "== $*"
    tried=$((tried + 1))
    if ! "$@"; then
        echo "== FAILED: $*"
        failed=$((failed + 1))
    fi
}

# What rt ci says ends in its counts, unless it fails before it has any. Its status is the gate's.
counted_part() { # COMMAND...
    echo "== $*"
    "$@" | tee "$said"
    status=${PIPESTATUS[0]}
    if [[ $(tail -n 1 "$said") =~ ^([0-9]+)' passed, '([0-9]+)' failed'$ ]]; then
        passed=${BASH_REMATCH[1]}
        failed=$((failed + BASH_REMATCH[2]))
        [ "$status" -eq 0 ] || [ "${BASH_REMATCH[2]}" -ne 0 ] || failed=$((failed + 1))
    else
        failed=$((failed + 1))
    fi
}

# rt ci passes where an edit that it must refuse is bad, which is one whose text stands in no file any more, and counts those on its
# line `rt: ok`.
edits_are_good() {
    local told
    if ! told=$(grep '^rt: ok' "$said"); then
        echo "rt ci has no line rt: ok"
        return 1
    fi
    if [[ $told =~ ,\ [1-9][0-9]*\ bad ]]; then
        echo "rt ci found bad must-fail edits: $told"
        return 1
    fi
}

# The last line, and the status: that of rt ci, or 1 where only another part failed.
verdict() {
    echo "$passed passed, $failed failed"
    [ "$status" -eq 0 ] || exit "$status"
    [ "$failed" -eq 0 ]
}

if ! cd "$(dirname "${BASH_SOURCE[0]}")/.." || ! said=$(mktemp); then
    echo "0 passed, 1 failed"
    exit 1
fi
trap 'rm -f "$said"' EXIT
if ! (source tools/kit.sh && [ "$kit_found" = "$kit_needed" ]); then
    echo "0 passed, 1 failed"
    exit 1
fi
