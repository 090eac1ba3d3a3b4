#!/usr/bin/env bash
# broken.sh: shows that against.c can fail. It is run on flawed.c, one flaw at a time: each has to be told by the families named here and by no other, and
# without a flaw by none. A line has the flaw and, for each family that tells it, how many arguments differ. One k of 64 in families 2 and 3a; a minute.
set -eu
cd "$(dirname "$0")/../.."
work=$(mktemp -d)
trap 'rm -rf "$work"' EXIT
strict=(-std=c11 -O2 -ffp-contract=off -Wall -Wextra -Wpedantic -Werror)
cc "${strict[@]}" -DSTEP=64 -c -o "$work/against.o" tools/roots/against.c
failed=0
while read -r flaw families; do
    cc "${strict[@]}" -DFLAW="$flaw" -o "$work/flawed" tools/roots/flawed.c "$work/against.o"
    status=0 wanted=0
    "$work/flawed" 1000000 1 "this processor" > "$work/out" || status=$?
    [ -z "$families" ] || wanted=1
    awk '/^[1-5][a-e]? / && $(NF - 1) > 0 { print $1 " (" $(NF - 1) ")" }' "$work/out" > "$work/told"
    told=$(cut -d ' ' -f 1 "$work/told" | xargs)
    counts=$(paste -s -d , "$work/told" | sed 's/,/, /g')
    printf '%-23s %s\n' "$flaw" "${counts:-not told}"
    if [ "$told" != "$families" ] || [ "$status" != "$wanted" ]; then
        echo "broken.sh: $flaw should be told by ${families:-none}, with status $wanted; the status is $status" >&2
        failed=1
    fi
done << 'FLAWS'
NONE
TRUNCATED 1 2 3a 3b 3c 3d 3e 4a 5
TIES_UP 1 2 3d 3e 4a
MIDDLE_BY_2 3d 3e
MIDDLE_BY_A_THOUSANDTH 1 2 3a 3b 3c 3d 3e 4a 5
SQUARES_UP 1 2 3a 4a
SUBNORMALS_CUT 1 4a 5
LAST_FIELD_INFINITE 1 3c 3e 5
ZEROS_WITHOUT_SIGN 1 4a 4b
PAYLOADS_KEPT 1 4b 5
FLAWS
exit "$failed"
