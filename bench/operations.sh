#!/usr/bin/env bash
# Times the built calculator (crates/iscc/out/iscc, or the one that is named) on operations on maps and sets of two coordinates over two
# parameters. Each statement is one thing of its row.
set -eu
cd "$(dirname "${BASH_SOURCE[0]}")/.."
. bench/common.sh
program="${1:-$(built iscc)}"

# Bindings, and a statement over them 2,000 times. `w` and `r`: what a loop nest writes and reads, and `f`: its instances that touch one element.
# `p`: a map with floors, `q`: one with strides. `s`: some of the instances, `t`: some of the elements. `u`: a set of pairs.
bound='w := [n, m] -> { S[i, j] -> A[i, j + 1] : 0 <= i < n and 0 <= j < m };
r := [n, m] -> { S[i, j] -> A[i + 1, k] : 0 <= i < n and 0 <= j < m and j - 1 <= k <= j + 1 };
p := [n, m] -> { S[i, j] -> T[floor(i/4), floor(j/8)] : 0 <= i < n and 0 <= j < m };
q := [n, m] -> { S[i, j] -> A[2i + 1, i + 3j] : 0 <= i < n and 0 <= j < m };
s := [n, m] -> { S[i, j] : 0 <= i < n and i <= j < m };
t := [n, m] -> { A[i, j] : i <= j < m and (i + j) mod 2 = 0 };
f := w . r^-1; u := wrap w; z := w cross r;'
again() {
  echo "$bound"
  awk -v statement="$1" 'BEGIN { for (i = 0; i < 2000; i++) print statement }'
}
measure() {
  again "$2" > "$folder/script"
  row "$1" 2009 "$folder/script" "$program"
}

head_row
measure 'compose' 'x := w . r^-1;'
measure 'compose, with strides' 'x := q . q^-1;'
measure 'compose, with floors' 'x := p^-1 . p;'
measure 'a map applied to a map' 'x := r(f);'
measure 'apply' 'x := r(s);'
measure 'apply, with strides' 'x := q(s);'
measure 'apply, with floors' 'x := p(s);'
measure 'domain' 'x := dom r;'
measure 'range' 'x := ran r;'
measure 'range, with strides' 'x := ran q;'
measure 'deltas' 'x := deltas f;'
measure 'restricted to a set' 'x := w * s;'
measure 'without a set' 'x := w - s;'
measure 'restricted to a range' 'x := w ->* t;'
measure 'without a range' 'x := w ->- t;'
measure 'from a set to a set' 'x := s -> t;'
measure 'pairs of two sets' 'x := s cross t;'
measure 'pairs of two maps' 'x := w cross r;'
measure 'identity' 'x := identity s;'
measure 'wrap' 'x := wrap w;'
measure 'unwrap' 'x := unwrap u;'
measure 'zip' 'x := zip z;'
measure 'domain map' 'x := domain_map w;'
measure 'range map' 'x := range_map w;'
