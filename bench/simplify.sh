#!/usr/bin/env bash
# Times the built calculator (crates/iscc/out/iscc, or the one that is named) on `%` and `coalesce`. Each statement is one thing of its row.
set -eu
cd "$(dirname "${BASH_SOURCE[0]}")/.."
. bench/common.sh
program="${1:-$(built iscc)}"

measure() {
  {
    echo "$2"
    awk -v statement="$3" -v count="$4" 'BEGIN { for (i = 0; i < count; i++) print statement }'
  } > "$folder/script"
  row "$1" "$4" "$folder/script" "$program"
}
# boxes N: N intervals, one behind the other.
boxes() {
  echo 's := { '
  for i in $(seq 0 "$(($1 - 1))"); do
    [ "$i" -eq 0 ] || echo '; '
    echo "[x, y] : $((4 * i)) <= x < $((4 * i + 4)) and 0 <= y <= 9"
  done
  echo ' };'
}

# apart N: N triangles, no two of which touch.
apart() {
  echo 's := { '
  for i in $(seq 0 "$(($1 - 1))"); do
    [ "$i" -eq 0 ] || echo '; '
    echo "[x, y] : $((9 * i)) <= x and x - $((9 * i)) <= y <= 5"
  done
  echo ' };'
}
# mixed N: the boxes, those at even places first.
mixed() {
  echo 's := { '
  for i in $(seq 0 2 "$(($1 - 1))") $(seq 1 2 "$(($1 - 1))"); do
    [ "$i" -eq 0 ] || echo '; '
    echo "[x, y] : $((4 * i)) <= x < $((4 * i + 4)) and 0 <= y <= 9"
  done
  echo ' };'
}

loop='D := [n, m] -> { S[t, i] : 0 <= t < m and 1 <= i <= n }; W := { S[t, i] -> A[i] } * D;
R := { S[t, i] -> A[k] : i - 1 <= k <= i + 1 } * D; T := { S[t, i] -> [t, i] };
d := any W before R under T; f := last W before R under T; l := f[0];'
head_row
measure 'gist of a dependence' "$loop" 'x := d % (D -> D);' 200
measure 'gist of a domain' "$loop" 'x := D % ([n, m] -> { S[t, i] : t >= 0 and n >= 1 });' 500
measure 'coalesce of dependences' "$loop" 'x := coalesce d;' 200
measure 'coalesce of flow' "$loop" 'x := coalesce l;' 200
for n in 100 400; do
  measure "coalesce of $n boxes" "$(boxes "$n")" 'x := coalesce s;' 2
  measure "coalesce of $n boxes, mixed" "$(mixed "$n")" 'x := coalesce s;' 2
  measure "coalesce of $n triangles apart" "$(apart "$n")" 'x := coalesce s;' 2
done
