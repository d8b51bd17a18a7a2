# Sourced by the benches: the clock, the built programs, and the table.

# The built program, or a word on how to build it.
built() {
  if [ ! -x "crates/$1/out/$1" ]; then
    echo "crates/$1/out/$1 is not there: build it by 'cd crates/$1 && rt run < /dev/null'" >&2
    exit 1
  fi
  echo "crates/$1/out/$1"
}

head_row() {
  printf '%-28s %9s %10s %12s %10s\n' name count bytes 'ms each' 'peak KiB'
}

# Runs a command on a file again and again until a second is full, each time with the exit status that is `wanted` (0), and prints a row: its name,
# how many things the file has, its bytes, the milliseconds for each of them, and the peak of memory.
row() {
  local name="$1" count="$2" file="$3" begin now status runs=0
  shift 3
  begin="$(date +%s%N)"
  while :; do
    status=0
    command time -f %M -o "$folder/peak" "$@" < "$file" > "$folder/out" 2> "$folder/err" || status=$?
    if [ "$status" -ne "${wanted:-0}" ]; then
      echo "$name: exit status $status, and ${wanted:-0} was wanted" >&2
      exit 1
    fi
    runs=$((runs + 1))
    now="$(date +%s%N)"
    [ $((now - begin)) -lt 1000000000 ] || break
  done
  awk -v name="$name" -v count="$count" -v bytes="$(wc -c < "$file")" -v each="$(((now - begin) / runs / count))" -v peak="$(tail -n 1 "$folder/peak")" \
    'BEGIN { printf "%-28s %9d %10d %12.5f %10d\n", name, count, bytes, each / 1000000, peak }'
}

folder="$(mktemp -d)"
trap 'rm -r "$folder"' EXIT
