#!/usr/bin/env bash
# check.sh PROGRAM: what benchpage prints on each sample NAME, held against NAME.txt byte for byte. The rows are rowcheck's, whose
# expected.txt says how they were made; in `sum` column 514 of fld.row is flipped too (bit 2 of ALU), so that RD is ALU again and the
# sum is what fails. The last line is 'N passed, M failed'.
set -uo pipefail

program=$1
samples=$(cd "$(dirname "${BASH_SOURCE[0]}")" && pwd)
rows=$samples/../../rowcheck/samples

row() {
    if [ "$1" = sum ]; then
        head -c 8224 "$rows/fld.row"
        printf '\1'
        tail -c +8226 "$rows/fld.row"
    else
        cat "$rows/$1.row"
    fi
}

passed=0
failed=0
for stored in "$samples"/*.txt; do
    name=$(basename "$stored" .txt)
    printf '%-10s%4d lines: %s\n' "$name" "$(wc -l <"$stored")" "$(head -n 1 "$stored" | sed 's/ *$//')"
    if difference=$(diff <(row "$name" | "$program") "$stored"); then
        passed=$((passed + 1))
    else
        echo "  which is not printed:"
        head -n 10 <<<"$difference"
        failed=$((failed + 1))
    fi
done
echo "$passed passed, $failed failed"
[ "$failed" = 0 ] && [ "$passed" -gt 0 ]
