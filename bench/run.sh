#!/usr/bin/env bash
# run.sh [HEAR]: instructions a frame of the proved programs and of the same programs in C, on the same input: hear; send, which
# packs in the default order with the set read from its bytes; then with an order in front of the input, the default one and
# another, receive by itself (bench_receive), receive with confidences (bench_soft), on the first 1,074 of the same frames, and
# pack (bench_pack); session files of 1,000 and of 2,000 frames (to_session and from_session). "less it" is without those for an
# empty input, which is the order alone where there is one and for from_session the file of no frames, and the ratio is that of
# the proved program to each. Status 1 if they write different bytes, if hear, receive, with confidences or without, or pack
# takes more than in plain C, or if send takes more than 0.45 of it. HEAR stands in for the proved hear. Needs clang, valgrind
# and the proved programs, which rt run in crates/NAME builds as crates/NAME/out/NAME.
set -euo pipefail
top=$(cd "$(dirname "$0")/.." && pwd)
hear=$(realpath "${1:-$top/crates/hear/out/hear}")
frames=9362
soft=1074
sets=5957
seed=1
work=$(mktemp -d)
trap 'rm -rf "$work"' EXIT

# build PROGRAM SOURCE [OPTION...]
build() { clang -std=c11 -O3 -Wall -Wextra -Werror "${@:3}" -o "$work/$1" "$top/bench/$2"; }

# count PROGRAM INPUT: instructions of the whole process, from its first to its last.
count() {
  valgrind --tool=callgrind --callgrind-out-file="$work/counts" "$1" <"$2" >/dev/null 2>"$work/said" ||
    { cat "$work/said" >&2; return 1; }
  sed -n 's/^totals: //p' "$work/counts"
}

# row WHAT NAME PROGRAM INPUT FRAMES: a line of the table; leaves the count in `total`.
row() {
  total=$(count "$3" "$4")
  awk -v what="$1" -v name="$2" -v total="$total" -v empty="$(count "$3" "$empty")" -v frames="$5" -v proved="${proved:-$total}" 'BEGIN {
    printf "%-20s %-18s %12d %9.1f %12d %9.1f %6.2f\n", what, name, total, total / frames, empty, (total - empty) / frames, proved / total }'
}

# same PROVED PROGRAM INPUT: they write the same bytes for the input, for an empty one and for those in `also`.
same() {
  for input in "$3" "$empty" "${also[@]}"; do
    cmp <("$1" <"$input") <("$2" <"$input")
  done
}

# measure WHAT PROVED SOURCE INPUT FRAMES MANNER...: the proved program, and C in each manner; leaves the counts in `proved` and `plain`.
measure() {
  proved=
  row "$1" proved "$2" "$4" "$5"
  proved=$total
  for manner in "${@:6}"; do
    case $manner in
    'plain C') build c "$3" ;;
    'plain C, product') build c "$3" -DPRODUCT ;;
    'tuned C') build c "$3" -DTUNED ;;
    *) build c "$3" -DTUNED -DMOVES ;;
    esac
    same "$2" "$work/c" "$4"
    row "$1" "$manner" "$work/c" "$4" "$5"
    [ "$manner" != 'plain C' ] || plain=$total
  done
}

# within WHAT PARTS: the proved program takes at most so many hundredths of plain C's instructions.
within() {
  if ((100 * proved > $2 * plain)); then
    echo "$1: the proved program takes more than $2 hundredths of plain C's instructions"
    exit 1
  fi
}

# in_order WHAT PROGRAM FORM FRAMES ORDER MANNER...: a program bench_PROGRAM, with an order in front of its input, as frames.c
# numbers it. They are compared on half an order too, and on a list that is none, since its last number is its first.
in_order() {
  "$work/frames" "$4" $seed "$3" "$5" >"$work/whole"
  head -c 54 "$work/whole" >"$work/order"
  head -c 27 "$work/whole" >"$work/half"
  { head -c 53 "$work/whole"; head -c 1 "$work/whole"; tail -c +55 "$work/whole"; } >"$work/none"
  empty=$work/order
  also=("$work/half" "$work/none")
  measure "$1" "$top/crates/bench_$2/out/bench_$2" "$2.c" "$work/whole" "$4" "${@:6}"
  within "$1" 100
  also=()
}

# session FRAMES: both programs on the first so many frames of `calls`, and on their file.
session() {
  head -c "$((7 * $1))" "$work/calls" >"$work/call"
  "$work/to_session" <"$work/call" >"$work/file"
  empty=/dev/null
  measure "to_session $1" "$top/crates/to_session/out/to_session" to_session.c "$work/call" "$1" 'plain C'
  empty=$work/no_frames
  measure "from_session $1" "$top/crates/from_session/out/from_session" from_session.c "$work/file" "$1" 'plain C'
}

empty=/dev/null
also=()
build frames frames.c
build send send.c
build to_session to_session.c
"$work/frames" $frames $seed >"$work/input"
"$work/frames" $sets $seed sets >"$work/sets"
"$work/send" <"$work/sets" >"$work/calls"
"$work/to_session" </dev/null >"$work/no_frames"
clang --version | head -n 1
printf '%-20s %-18s %12s %9s %12s %9s %6s\n' what program instructions 'a frame' 'empty input' 'less it' ratio
measure hear "$hear" hear.c "$work/input" $frames 'plain C' 'tuned C' 'tuned C, by moves'
within hear 100
measure send "$top/crates/send/out/send" send.c "$work/sets" $sets 'plain C' 'plain C, product' 'tuned C'
within send 45
in_order receive receive frames $frames 0 'plain C' 'tuned C' 'tuned C, by moves'
in_order 'receive, other order' receive frames $frames 1 'plain C' 'tuned C'
in_order soft soft soft $soft 0 'plain C' 'tuned C'
in_order 'soft, other order' soft soft $soft 1 'plain C' 'tuned C'
in_order pack pack sets $sets 0 'plain C' 'tuned C'
in_order 'pack, other order' pack sets $sets 1 'plain C' 'tuned C'
session 1000
session 2000
