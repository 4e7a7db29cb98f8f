#!/usr/bin/env bash
# parts.sh: where the instructions of plain C and of tuned C go: instructions a frame by function, on the input of run.sh.
# Needs clang and valgrind.
set -euo pipefail
cd "$(dirname "$0")"
frames=9362
seed=1
work=$(mktemp -d)
trap 'rm -rf "$work"' EXIT

# Functions of the sources by line, then the counts of each line; code that was inlined keeps the line it came from, and
# "merged" is what the compiler made of several lines. Printing is hear.c and put_pair; the rest of the headers receives.
by_function() {
  awk -v frames=$frames '
    FNR == 1 { file = FILENAME; sub(".*/", "", file); counts = file ~ /\.counts$/; tuned = file ~ /^tuned/; name = "" }
    !counts && /^(static|int) .*\(/ && !/[;=]/ { name = $0; sub(/\(.*/, "", name); sub(/.*[ *]/, "", name) }
    !counts && name != "" { at[file, FNR] = name }
    !counts && /^}/ { name = "" }
    counts && /^f[lie]=/ { file = $0; sub(".*[/=]", "", file) }
    counts && /^calls=/ { getline; next }
    counts && /^[0-9]+ [0-9]+$/ {
      name = ((file, $1) in at) ? at[file, $1] : "merged"
      side = file ~ /^(receive|melp|plain|tuned)\.h$/ ? "receiving" : "start-up and library"
      if (file == "hear.c" || name == "put_pair") side = "printing"
      if (side ~ /ing$/) add(side " " name, $2)
      add(side " in all", $2)
      add("whole program", $2)
    }
    END { for (r in rows) if (rows[r] >= frames) printf "%8.1f %8.1f  %s\n", sum[r, 0] / frames, sum[r, 1] / frames, r }
    function add(r, count) { rows[r] += count; sum[r, tuned] += count }' \
    hear.c receive.h melp.h plain.h tuned.h "$work/plain.counts" "$work/tuned.counts"
}

clang -std=c11 -O3 -o "$work/frames" frames.c
clang -std=c11 -O3 -g -o "$work/plain" hear.c
clang -std=c11 -O3 -g -DTUNED -o "$work/tuned" hear.c
"$work/frames" $frames $seed >"$work/input"
for program in plain tuned; do
  valgrind --tool=callgrind --compress-strings=no --compress-pos=no --callgrind-out-file="$work/$program.counts" \
    "$work/$program" <"$work/input" >/dev/null 2>&1
done
printf '%8s %8s  %s\n' plain tuned 'instructions a frame'
by_function | sort -k 3,3 -k 1,1nr -k 2,2nr
