#!/usr/bin/env bash
# Times the built calculator (crates/iscc/out/iscc, or the one that is named) on scripts of statements: bindings, names, unions, meets and
# inverses, and all of them in turn. Each statement is one thing of its row.
set -eu
cd "$(dirname "${BASH_SOURCE[0]}")/.."
. bench/common.sh
program="${1:-$(built iscc)}"

# A set, a map, and what is done to them 20,000 times.
set='[n] -> { S[i, j] : 0 <= i < n and 0 <= j <= i }'
other='[n] -> { S[i, j] : 2j >= i + 5 and j <= 20 }'
map='[n] -> { S[i, j] -> A[i + j] : 0 <= i < n and 0 <= j <= i }'
ten='{ S0[i] : i >= 0; S1[i] : i >= 1; S2[i] : i >= 2; S3[i] : i >= 3; S4[i] : i >= 4; S5[i] : i >= 5; S6[i] : i >= 6; S7[i] : i >= 7; S8[i] : i >= 8; S9[i] : i >= 9 }'
again() {
  awk -v statement="$1" 'BEGIN { for (i = 0; i < 20000; i++) print statement }'
}
{ again "a := $set;"; } > "$folder/bindings"
awk -v literal="$set" 'BEGIN { for (i = 0; i < 20000; i++) printf "a%d := %s;\n", i, literal }' > "$folder/names"
{ echo "a := $set;"; again 'b := a;'; } > "$folder/shared"
{ echo "a := $set;"; again 'a;'; } > "$folder/shown"
{ echo "a := $set; b := $other;"; again 'c := a + b;'; } > "$folder/unions"
{ echo "a := $set; b := [m] -> { S[i, j] : i >= m };"; again 'c := a + b;'; } > "$folder/aligned"
{ echo "a := $ten; b := $ten;"; again 'c := a + b;'; } > "$folder/wide_unions"
{ echo "a := $set; b := $other;"; again 'c := a * b;'; } > "$folder/meets"
{ echo "a := $ten; b := $ten;"; again 'c := a * b;'; } > "$folder/wide_meets"
{ echo "m := $map;"; again 'c := m^-1;'; } > "$folder/inverses"

# 20,000 statements in turn: bindings of literals to 1,000 names, unions, meets and inverses of what was bound, and what they come to shown.
awk -v set="$set" -v map="$map" 'BEGIN {
  for (i = 0; i < 2000; i++) {
    n = i % 1000
    printf "a%d := %s; m%d := %s;\n", n, set, n, map
    printf "b%d := [n] -> { S[i, j] : i >= %d } + a%d; c := a%d * b%d;\n", n, i, n, n, n
    printf "r%d := m%d^-1; print c; a%d;\n", n, n, n
    printf "(a%d + b%d) * a%d; r%d + m%d; r%d^-1 * m%d;\n", n, n, n, n, n, n, n
  }
}' > "$folder/mixed"

head_row
row 'bindings of one name' 20000 "$folder/bindings" "$program"
row 'bindings of 20,000 names' 20000 "$folder/names" "$program"
row 'names bound to names' 20001 "$folder/shared" "$program"
row 'names shown' 20001 "$folder/shown" "$program"
row 'unions' 20002 "$folder/unions" "$program"
row 'unions, parameters joined' 20002 "$folder/aligned" "$program"
row 'unions of 10 and 10 pieces' 20002 "$folder/wide_unions" "$program"
row 'meets' 20002 "$folder/meets" "$program"
row 'meets of 10 and 10 pieces' 20002 "$folder/wide_meets" "$program"
row 'inverses' 20001 "$folder/inverses" "$program"
row 'all in turn' 20000 "$folder/mixed" "$program"
