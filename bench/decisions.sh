#!/usr/bin/env bash
# Times the built calculator (crates/iscc/out/iscc, or the one that is named) on statements that decide: tests, differences, samples, and
# listings. Each statement is one thing of its row.
set -eu
cd "$(dirname "${BASH_SOURCE[0]}")/.."
. bench/common.sh
program="${1:-$(built iscc)}"

# Bindings, and a statement over them 5,000 times.
set='[n] -> { S[i, j] : 0 <= i < n and 0 <= j <= i }'
same='[n] -> { S[i, j] : 0 <= i and i <= n - 1 and 0 <= j and j <= i }'
less='[n] -> { S[i, j] : 0 <= i < n - 1 and 0 <= j <= i }'
even='[n] -> { S[i, j] : 0 <= i < n and 0 <= j <= i and (i + j) mod 2 = 0 }'
evens='[n] -> { S[i, j] : 0 <= i < n and 0 <= j <= i and exists (k : i + j = 2k) }'
again() {
  echo "a := $1; b := $2;"
  awk -v statement="$3" 'BEGIN { for (i = 0; i < 5000; i++) print statement }'
}
again "$set" "$same" 'a = b;' > "$folder/equal"
again "$even" "$evens" 'a = b;' > "$folder/strided"
again "$less" "$set" 'a <= b;' > "$folder/subset"
again "$set" "$less" 'a <= b;' > "$folder/no_subset"
again "$set" "$less" 'c := a - b;' > "$folder/difference"
again "$set" "$even" 'c := a - b;' > "$folder/odd"
again '{ }' '{ }' '{ [x, y] : 27 <= 11x + 13y <= 45 and -10 <= 7x - 9y <= 4 } = { };' > "$folder/no_whole_point"
again "$set" '{ }' 'c := sample a;' > "$folder/sample"
again '{ [i] : 0 <= i < 10 }' '{ }' 'scan a;' > "$folder/scan"
echo 'scan { [i, j] : 0 <= i < 300 and 0 <= j < 300 };' > "$folder/scan_wide"
echo 'scan { [i] : 0 <= i <= 1000000000 and (i) mod 10000 = 0 };' > "$folder/scan_stride"

head_row
row 'equal' 5002 "$folder/equal" "$program"
row 'equal, with strides' 5002 "$folder/strided" "$program"
row 'no whole point' 5002 "$folder/no_whole_point" "$program"
row 'subset' 5002 "$folder/subset" "$program"
row 'no subset' 5002 "$folder/no_subset" "$program"
row 'difference' 5002 "$folder/difference" "$program"
row 'difference, with strides' 5002 "$folder/odd" "$program"
row 'sample' 5002 "$folder/sample" "$program"
row 'scan of 10 elements' 5002 "$folder/scan" "$program"
row 'scan of 90,000 elements' 1 "$folder/scan_wide" "$program"
row 'scan of 100,001, with a stride' 1 "$folder/scan_stride" "$program"
