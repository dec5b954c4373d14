#!/usr/bin/env bash
# check.sh PROGRAM: what rowcheck prints on each sample, held against expected.txt. The last line is 'N passed, M failed'.
set -uo pipefail

program=$1
samples=$(cd "$(dirname "${BASH_SOURCE[0]}")" && pwd)
passed=0
failed=0
while read -r row line; do
    printed=$("$program" <"$samples/$row")
    printf '%-14s%s\n' "$row" "$printed"
    if [ "$printed" = "$line" ]; then
        passed=$((passed + 1))
    else
        echo "  and not: $line"
        failed=$((failed + 1))
    fi
done < <(grep -v '^#' "$samples/expected.txt")
echo "$passed passed, $failed failed"
[ "$failed" = 0 ] && [ "$passed" -gt 0 ]
