#!/usr/bin/env bash
# Times the built calculator (crates/iscc/out/iscc, or the one that is named) on orders, first elements and dependences. Each statement is one
# thing of its row.
set -eu
cd "$(dirname "${BASH_SOURCE[0]}")/.."
. bench/common.sh
program="${1:-$(built iscc)}"

# again BINDINGS STATEMENT COUNT: bindings, and a statement over them so many times.
again() {
  echo "$1"
  awk -v statement="$2" -v count="$3" 'BEGIN { for (i = 0; i < count; i++) print statement }'
}
measure() {
  again "$2" "$3" "$4" > "$folder/script"
  row "$1" "$4" "$folder/script" "$program"
}

stencil='D := { S[t, i] : 0 <= t < 4 and 0 <= i < 8 }; W := { S[t, i] -> A[t, i] } * D;
R := { S[t, i] -> A[t - 1, j] : i - 1 <= j <= i + 1 } * D; T := { S[t, i] -> [t, i] } * D;'
product='D := [n] -> { S[i, j, k] : 0 <= i, j, k < n }; W := { S[i, j, k] -> C[i, j] } * D;
R := { S[i, j, k] -> C[i, j]; S[i, j, k] -> A[i, k]; S[i, j, k] -> B[k, j] } * D; T := { S[i, j, k] -> [i, j, k] };'
decomposition='D := [n] -> { S[k, i] : 0 <= k < i < n; T[k, i, j] : 0 <= k < n and k < i < n and k < j < n };
W := { S[k, i] -> A[i, k]; T[k, i, j] -> A[i, j] } * D;
R := { S[k, i] -> A[i, k]; S[k, i] -> A[k, k]; T[k, i, j] -> A[i, j]; T[k, i, j] -> A[i, k]; T[k, i, j] -> A[k, j] } * D;
T := { S[k, i] -> [k, 0, i, 0]; T[k, i, j] -> [k, 1, i, j] };'
sweep='D := [n, m] -> { R[t, i] : 0 <= t < m and 1 <= i <= n and i mod 2 = 0; B[t, i] : 0 <= t < m and 1 <= i <= n and i mod 2 = 1 };
W := { R[t, i] -> A[i]; B[t, i] -> A[i] } * D;
R := { R[t, i] -> A[k] : i - 1 <= k <= i + 1; B[t, i] -> A[k] : i - 1 <= k <= i + 1 } * D; T := { R[t, i] -> [t, 0, i]; B[t, i] -> [t, 1, i] };'
map='m := [n] -> { S[i] -> A[j, k] : 0 <= i < n and i <= j < n and j <= k and k < n };'

head_row
measure 'last, stencil' "$stencil" 'x := last W before R under T;' 200
measure 'last, matrix product' "$product" 'x := last W before R under T;' 50
measure 'last, decomposition' "$decomposition" 'x := last W before R under T;' 20
measure 'last, red and black' "$sweep" 'x := last W before R under T;' 20
measure 'any, decomposition' "$decomposition" 'x := any W before R under T;' 20
measure 'least images' "$map" 'x := lexmin m;' 500
measure 'greatest images' "$map" 'x := lexmax m;' 500
measure 'order of sets' 's := [n] -> { [i, j, k] : 0 <= i, j, k < n };' 'x := s << s;' 500
for k in $(seq 2 31); do
  sed "s/K/$k/g" << 'TEXT'
D := { S[t, i] : 0 <= t < 4 and 0 <= i < K };
W := { S[t, i] -> A[t, i] } * D;
R := { S[t, i] -> A[t - 1, j] : i - 1 <= j <= i + 1 } * D;
T := { S[t, i] -> [t, i] } * D;
F := last W before R under T;
scan dom F[0];
F[0] = any W before R under T;
dom F[0] <= D;
scan deltas F[0];
scan F[1];
TEXT
done > "$folder/script"
row 'stencils of 2 to 31' 300 "$folder/script" "$program"

# The same by isl, where it is installed; calls alone, without reading and printing.
if cc -O2 -o "$folder/isl" bench/dependence.c -lisl 2> /dev/null; then
  "$folder/isl"
fi
