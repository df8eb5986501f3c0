#!/usr/bin/env bash
# all.sh: builds the two programs and runs every script of this folder over them. It takes some ten minutes on four processors.
# ORACLE and REFERENCE name other simulators, as damaged.py and largest.py say. The last line is 'N passed, M failed'.
set -uo pipefail
cd "$(dirname "$0")/../.."
if ! make -s build || ! (cd crates/play_events && rt run <stdin >/dev/null 2>&1); then
    echo "the programs aren't proved, or weren't built"
    echo "0 passed, 1 failed"
    exit 1
fi
export CMBSIM=$PWD/out/cmbsim
log=$(mktemp)
trap 'rm -f "$log"' EXIT
passed=0
failed=0
for script in ends.sh streams.py terminal.py refuse_each.py damaged.py largest.py shared_runs.py free_load.sh; do
    echo "== $script"
    "scripts/hostile/$script" | tee "$log"
    last=$(tail -1 "$log")
    if [[ $last =~ ^([0-9]+)\ passed,\ ([0-9]+)\ failed$ ]]; then
        passed=$((passed + BASH_REMATCH[1]))
        failed=$((failed + BASH_REMATCH[2]))
    else
        echo "$script didn't come to its end"
        failed=$((failed + 1))
    fi
done
echo "$passed passed, $failed failed"
[ "$failed" = 0 ]
