#!/usr/bin/env bash
# Times operations on values by the built calculator (crates/iscc/out/iscc, or the one that is named), which works each of them out again
# and again; what a statement costs beside, bench/statements.sh tells. `strided`: instances of `loops` by a congruence, and `halves`: by a
# floor. `wide`: six coordinates from 0 to n, and `inner`: from 1 to n - 1.
set -eu
cd "$(dirname "${BASH_SOURCE[0]}")/.."
. bench/common.sh
program="${1:-$(built iscc)}"
turns=2000

loops='[n] -> { S[i, j] : 0 <= i < n and 0 <= j <= i }'
others='[n] -> { S[i, j] : 2j >= i + 5 and j <= 20 }'
strided='[n] -> { S[i, j] : 0 <= i < n and 0 <= j <= i and (i + j) mod 2 = 0 }'
halves='[n] -> { S[i, j] : 0 <= i < n and 0 <= j <= i and i - 2*floor(i/2) = 0 }'
wide='[n] -> { S[a, b, c, d, e, f] : 0 <= a, b, c, d, e, f <= n }'
inner='[n] -> { S[a, b, c, d, e, f] : 1 <= a, b, c, d, e, f <= n - 1 }'

# A row for an operation on two values, which are bound before; a floor would go then, so `halves` stands in each statement.
pair() {
  local statement="${2/LEFT/a}" other="$4"
  [ "$4" != "$halves" ] || other='{ }' statement="${statement/RIGHT/($halves)}"
  awk -v a="$3" -v b="$other" -v statement="${statement/RIGHT/b}" -v count="$turns" \
    'BEGIN { printf "a := %s; b := %s;\n", a, b; for (i = 0; i < count; i++) print statement }' > "$folder/script"
  row "$1" "$turns" "$folder/script" "$program"
}

head_row
for operation in 'meet c := LEFT * RIGHT;' 'minus c := LEFT - RIGHT;' 'subset LEFT <= RIGHT;' 'equal LEFT = RIGHT;'; do
  name="${operation%% *}" statement="${operation#* }"
  pair "$name, loops, others" "$statement" "$loops" "$others"
  pair "$name, loops, strided" "$statement" "$loops" "$strided"
  pair "$name, strided, loops" "$statement" "$strided" "$loops"
  pair "$name, loops, halves" "$statement" "$loops" "$halves"
  pair "$name, wide, inner" "$statement" "$wide" "$inner"
  pair "$name, inner, wide" "$statement" "$inner" "$wide"
done
