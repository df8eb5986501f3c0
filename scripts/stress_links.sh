#!/usr/bin/env bash
# stress_links.sh [RUNS]: proves and builds the stress program of boards and links, and runs it RUNS times, 20 if not given. Each
# run has to end within a minute and to print what is expected. The last line is 'N passed, M failed'.
set -uo pipefail
cd "$(dirname "$0")/../crates/links_stress"
runs=${1:-20}
if ! rt run >/dev/null 2>&1; then
    echo "stress: the program isn't proved, or its first run failed"
    echo "0 passed, 1 failed"
    exit 1
fi
passed=0
failed=0
for ((run = 1; run <= runs; run++)); do
    if timeout 60 out/links_stress | cmp -s - stdout; then
        passed=$((passed + 1))
    else
        failed=$((failed + 1))
        echo "stress: run $run FAILED"
    fi
done
echo "$passed passed, $failed failed"
[ "$failed" -eq 0 ]
