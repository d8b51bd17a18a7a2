#!/usr/bin/env bash
# Times the built calculator (crates/iscc/out/iscc, or the one that is named) on scripts of literals, and on those that must be refused.
set -eu
cd "$(dirname "${BASH_SOURCE[0]}")/.."
. bench/common.sh
program="${1:-$(built iscc)}"

# 20,000 literals, one a statement.
awk 'BEGIN { for (i = 0; i < 20000; i++) printf "[n] -> { S[i, j] -> A[i + %d] : 0 <= i < n and 2j >= i + %d };\n", i % 97, i }' > "$folder/statements"
# One literal of 1,000 pieces, and one of 20,000.
pieces='BEGIN { printf "{ "; for (i = 0; i < n; i++) printf "%sS%d[i, j] : %d <= i <= j", i ? "; " : "", i % 37, i; print " };" }'
awk -v n=1000 "$pieces" > "$folder/pieces"
awk -v n=20000 "$pieces" > "$folder/many_pieces"
# 200 literals that are 32 coordinates wide.
awk 'BEGIN { for (s = 0; s < 200; s++) { printf "{ ["; for (i = 0; i < 32; i++) printf "%sx%d", i ? ", " : "", i; printf "] : x0 >= %d", s; for (i = 1; i < 32; i++) printf " and x%d >= x%d + 1", i, i - 1; print " };" } }' > "$folder/wide"
# 2,000 literals each: with a bound name, with remainders, with two nested floors; 200 with thirty `!=`, which leave thirty-one pieces at most.
awk 'BEGIN { for (s = 0; s < 2000; s++) printf "[n] -> { S[i] : exists (k : i = 2k + %d and 0 <= k < n) };\n", s }' > "$folder/exists"
awk 'BEGIN { for (s = 0; s < 2000; s++) printf "[n] -> { S[i, j] : i mod 4 = 1 and (i + j + %d) mod 3 <= 1 and 0 <= i, j < n };\n", s }' > "$folder/remainders"
awk 'BEGIN { for (s = 0; s < 2000; s++) printf "{ S[i] : floor(floor(i/3)/5) = %d };\n", s }' > "$folder/floors"
awk 'BEGIN { for (s = 0; s < 200; s++) { printf "{ [i] : i != %d", s; for (k = 1; k < 30; k++) printf " and i != %d", s + k; print " };" } }' > "$folder/differs"
# One piece of 50,000 distinct rows.
awk 'BEGIN { printf "{ [i, j] : 0 >= i"; for (r = 0; r < 50000; r++) printf " and i + %dj >= %d", r, r % 7; print " };" }' > "$folder/rows"
# What must be refused: 100,000 parameters, 40,000 named entries, 20 MB of closing braces.
awk 'BEGIN { printf "["; for (i = 0; i < 100000; i++) printf "%sp%d", i ? ", " : "", i; print "] -> { };" }' > "$folder/parameters"
awk 'BEGIN { printf "{ ["; for (i = 0; i < 40000; i++) printf "%sx%d = 0", i ? ", " : "", i; print "] };" }' > "$folder/entries"
head -c 20000000 /dev/zero | tr '\0' '}' > "$folder/braces"
echo ';' >> "$folder/braces"

head_row
row 'literals' 20000 "$folder/statements" "$program"
row 'a literal of 1,000 pieces' 1 "$folder/pieces" "$program"
row 'of 20,000 pieces' 1 "$folder/many_pieces" "$program"
row '32 coordinates wide' 200 "$folder/wide" "$program"
row 'with a bound name' 2000 "$folder/exists" "$program"
row 'with remainders' 2000 "$folder/remainders" "$program"
row 'with two nested floors' 2000 "$folder/floors" "$program"
row 'with thirty !=' 200 "$folder/differs" "$program" --budget 150
row '50,000 rows' 1 "$folder/rows" "$program"
wanted=12 row '100,000 parameters' 1 "$folder/parameters" "$program"
wanted=12 row '40,000 named entries' 1 "$folder/entries" "$program"
wanted=15 row '20 MB of braces' 1 "$folder/braces" "$program"

if command -v valgrind > "$folder/out"; then
  head -n 2000 "$folder/statements" > "$folder/some"
  valgrind --tool=callgrind --callgrind-out-file=/dev/null "$program" < "$folder/some" 2>&1 > "$folder/out" \
    | awk '/Collected/ { printf "%d instructions a literal\n", $NF / 2000 }'
else
  echo 'instructions a literal: not counted, since valgrind is not there'
fi
