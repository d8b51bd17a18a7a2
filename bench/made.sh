#!/usr/bin/env bash
# made.sh [PROGRAM]: times the built calculator (crates/iscc/out/iscc, or the one that is named) on scripts that it makes itself. Each statement
# is one thing of its row.
set -eu
cd "$(dirname "${BASH_SOURCE[0]}")/.."
. bench/common.sh
program="${1:-$(built iscc)}"

: > "$folder/script"
head_row
for sizes in 1 10 100 1000; do
  row "made for $sizes sizes" "$((10 * sizes))" "$folder/script" "$program" --make "$sizes"
done
