#!/usr/bin/env bash
# All benches, one after the other: one table, and behind it the instructions a literal.
set -eu -o pipefail
cd "$(dirname "${BASH_SOURCE[0]}")"
./elimination.sh
./statements.sh | tail -n +2
./decisions.sh | tail -n +2
./operations.sh | tail -n +2
./values.sh | tail -n +2
./made.sh | tail -n +2
./literals.sh | tail -n +2
