#!/usr/bin/env bash
# Times the built calculator (crates/iscc/out/iscc, or the one that is named) on literals of which a column goes, again and again, and on
# questions whether a literal has an element. Each statement is one thing of its row.
set -eu
cd "$(dirname "${BASH_SOURCE[0]}")/.."
. bench/common.sh
program="${1:-$(built iscc)}"

# Dependences of a stencil over a grid: T, n, the time and the place that are written, and those that are read.
near='i - 1 <= k <= i + 1 and j - 1 <= l <= j + 1'
stencil="v := { [T, n, t, j, u, k, l] : exists (i : 0 <= t < T and 1 <= i, j <= n - 2 and u = t + 1 and $near) };"
# It has rational points, and no whole one.
skewed='v := { [y] : exists (x : 27 <= 11x + 13y <= 45 and -10 <= 7x - 9y <= 4) };'
remainder='v := { [] : exists (i : (floor(i/64)) mod 16 = 5 and (i) mod 64 = 3) };'
# Four nested divisions over two coordinates from 0 to 50.
p='floor((i + j)/3)'
q="floor((2i + $p)/5)"
r="floor(($q - j)/7)"
nested="v := { [j] : exists (i : 0 <= i, j <= 50 and floor(($p + $r)/2) = 4) };"
incongruent='{ [x, y] : (x) mod 101 != 0 and (x + 1) mod 103 != 0 and 3y + 1 <= 5x <= 3y + 2 } = { };'
# Six bounds with coefficients up to 9 that no rational point meets.
three='2z + 12 >= 9x + 4y and 5x + 3y + 2z + 16 >= 0 and 8x + 9z + 8 >= 2y'
crossed="{ [x, y, z] : $three and 5x + 7y >= z + 10 and 5x + 1 >= 9y + 5z and 8x >= 6y + z + 19 } = { };"

# A row for a statement so many times.
timed() {
  awk -v statement="$3" -v count="$2" 'BEGIN { for (i = 0; i < count; i++) print statement }' > "$folder/script"
  row "elimination, $1" "$2" "$folder/script" "$program"
}

head_row
timed stencil 10000 "$stencil"
timed skewed 10000 "$skewed"
timed remainder 10000 "$remainder"
timed incongruent 10000 "$incongruent"
timed crossed 10000 "$crossed"
timed nested 10 "$nested"
