#!/usr/bin/env bash
# Times the built calculator (crates/iscc/out/iscc, or the one that is named) on `codegen`. Each statement is one thing of its row.
set -eu
cd "$(dirname "${BASH_SOURCE[0]}")/.."
. bench/common.sh
program="${1:-$(built iscc)}"

# measure NAME BINDING COUNT WORDS ..: the statement `codegen s` so many times, for the `s` that is bound.
measure() {
  local name="$1" binding="$2" count="$3"
  shift 3
  {
    echo "$binding"
    awk -v count="$count" 'BEGIN { for (i = 0; i < count; i++) print "codegen s;" }'
  } > "$folder/script"
  row "$name" "$count" "$folder/script" "$program" "$@"
}

head_row
measure 'a triangle' 's := [n] -> { S[i, j] -> [i, j] : 0 <= j <= i < n };' 500
measure 'a skewed nest' 's := [n] -> { S[i, j] -> [i + j, j] : 0 <= i, j < n };' 500
measure 'two statements' 's := [n] -> { S[i] -> [i, 0] : 0 <= i < n; T[i] -> [i, 1] : 0 <= i < n };' 500
measure 'a decomposition' 's := [n] -> { S[k, i] -> [k, 0, i, 0] : 0 <= k < i < n; T[k, i, j] -> [k, 1, i, j] : 0 <= k < i < n and k < j < n };' 200
measure 'a product in tiles' 's := [n] -> { S[i, j, k] -> [floor(i/32), floor(j/32), floor(k/32), i, j, k] : 0 <= i, j, k < n };' 100
measure 'a stride' 's := { [i] : 0 <= i < 100 and (i - 3) mod 7 = 0 };' 500
measure 'a million turns' 's := { [i, j] : 0 <= i, j < 1000 };' 1 --run

# The same by isl, where it is installed; calls alone, without reading and printing.
if cc -O2 -o "$folder/isl" bench/loops.c -lisl 2> /dev/null; then
  "$folder/isl"
fi
