#!/usr/bin/env bash
# The proved programs against the independent implementation, on inputs that follow from SEED (1 if not given):
#   compare.sh vectors VECTORS [SEED]      so many calls of the library
#   compare.sh soft VECTORS [SEED]         so many of its calls with confidences
#   compare.sh orders VECTORS [SEED]       so many of its calls that take an order
#   compare.sh order FILE VECTORS [SEED]   so many of these calls with the order in a file: 54 numbers in decimal
#   compare.sh spectrum INPUTS [SEED]      at least so many inputs of the program spectrum
#   compare.sh hear FRAMES [SEED]          at least so many frames of the program hear
#   compare.sh session FILES [SEED]        at least so many inputs of the programs from_session and to_session
#   compare.sh                             a short run of all but order
# Ends with status 1 at the first difference. Needs rustc and rt, which proves and builds the programs (crates/NAME/out).
set -euo pipefail
top=$(cd "$(dirname "$0")/.." && pwd)
work=$(mktemp -d)
proved=$work/proved
mkdir "$proved"
trap 'rm -rf "$work"' EXIT

fail() {
  printf '%s\n' "$@"
  exit 1
}

# At most one line a second.
progress() {
  ((SECONDS == told)) || echo "$1, no difference so far"
  told=$SECONDS
}

# prepare PROGRAM HELPER...: the program is proved and built (rt run builds it, and runs it on nothing); the independent one
# is built and tried on the document's examples.
prepare() {
  local name
  (cd "$top/crates/$1" && rt run) </dev/null >/dev/null 2>"$work/said" ||
    fail "rt run does not build $1:" "$(tail -n 3 "$work/said")"
  cp "$top/crates/$1/out/$1" "$proved/$1"
  for name; do
    rustc -O -o "$work/$name" "$top/tests/reference/$name.rs"
  done
  [ "$("$work/$1" selftest)" = ok ] || fail "the independent $1 fails on the document's examples"
  told=$SECONDS
}

# Whether the texts expected and printed are the same. If not, found has the number of the first line that differs, from
# 0, and that line of either text.
same() {
  "$work/difference" "$work/expected" "$work/printed" >"$work/found" && return
  mapfile -t found <"$work/found"
  return 1
}

# ---- vectors, soft, orders and order ----

# says FILE ANSWER: whether this is the proved program's answer to the vectors of a file; said is what it says.
says() {
  said=$("$proved/vectors" <"$work/$1") || said="$said status=$?"
  [ "$said" = "$2" ]
}

# The vectors of the gate must be those that the independent implementation makes.
find_stored() {
  "$work/vectors" gate 2>/dev/null | cmp -s - "$top/crates/vectors/stdin" ||
    fail "vectors: crates/vectors/stdin is not what the independent vectors makes for the gate"
}

# The proved program must find every one of a thousand wrong expectations.
find_spoilt() {
  "$work/vectors" 1000 "$1" spoilt >"$work/lot"
  says lot "vectors=1000 differences=1000 left=0" || fail "vectors: seed $1, 1000 spoilt vectors, answer: \"$said\""
}

# part_of_lot FIRST COUNT: so many vectors of the lot, from one on, into a file.
part_of_lot() {
  dd if="$work/lot" of="$work/part" bs=256 skip="$1" count="$2" status=none
}

# The first vector of the lot that the proved program does not confirm, found by halves, in hexadecimal.
wrong_vector() {
  local first=0 left=$lot half
  while ((left > 1)); do
    half=$((left / 2))
    part_of_lot "$first" "$half"
    if says part "vectors=$half differences=0 left=0"; then
      first=$((first + half)) left=$((left - half))
    else
      left=$half
    fi
  done
  part_of_lot "$first" 1
  echo "vector $first:" && od -An -tx1 -v "$work/part"
}

# compare_lots NAME MOST VECTORS SEED [WORD...]: so many vectors, at most MOST of a seed; the words say which.
compare_lots() {
  local count=0 most=$2 seed=$4 words=("${@:5}") lot said
  prepare vectors
  find_stored
  find_spoilt "$seed"
  while ((count < $3)); do
    lot=$(($3 - count < most ? $3 - count : most))
    "$work/vectors" "$lot" "$seed" "${words[@]}" >"$work/lot"
    says lot "vectors=$lot differences=0 left=0" ||
      fail "$1: seed $seed, $lot vectors, answer: \"$said\"" "$(wrong_vector)"
    count=$((count + lot)) seed=$((seed + 1))
    progress "$count vectors"
  done
  echo "$1: $count vectors, no difference"
}

compare_vectors() {
  compare_lots vectors 1000 "$@"
}

compare_soft() {
  compare_lots soft 20000 "$@" soft
}

compare_orders() {
  compare_lots orders 20000 "$@" orders
}

# compare_order FILE VECTORS SEED
compare_order() {
  compare_lots order 20000 "$2" "$3" order "$1"
}

# ---- spectrum ----

# answers PROGRAM...: what it prints for each input in the folder of its case, under a heading, and its status.
answers() (
  for input in "$work"/cases/*/frame-*; do
    cd "${input%/*}"
    echo "case ${input#"$work/cases/"}"
    status=0
    "$@" <"$input" || status=$?
    echo "(ended with status $status)"
  done
)

# The case of a line of the texts.
case_at() {
  local text
  head -n "$(($1 + 1))" "$work/expected" | while read -r text; do
    if [[ $text == case* ]]; then echo "$text"; fi
  done | tail -n 1
}

compare_spectrum() {
  local count=0 kind=spoilt seed=$2 inputs
  prepare spectrum spectrum_cases difference
  while ((count < $1)); do
    rm -rf "$work/cases" && mkdir "$work/cases"
    "$work/spectrum_cases" "$work/cases" "$kind" "$seed"
    answers "$work/spectrum" . >"$work/expected"
    answers "$proved/spectrum" >"$work/printed"
    same || fail "spectrum: seed $seed, $kind $(case_at "${found[0]}")" "expected: ${found[1]}" "printed:  ${found[2]}"
    inputs=("$work"/cases/*/frame-*)
    count=$((count + ${#inputs[@]}))
    if [ "$kind" = random ]; then seed=$((seed + 1)); fi
    kind=random
    progress "$count inputs"
  done
  echo "spectrum: $count inputs, no difference"
}

# ---- hear ----

# heard PROGRAM: what it prints for the call, which comes through a pipe in pieces, its status, and how many bytes it left
# unread.
heard() {
  dd if="$work/call" bs="$piece" status=none | {
    status=0
    "$1" || status=$?
    echo "(ended with status $status, $(wc -c) bytes unread)"
  }
}

# The frame of a line of the texts, with its bytes.
frame_at() {
  if [[ $1 == 0 || ${found[1]} != frame=* ]]; then
    echo "line $1"
  else
    echo "frame $(($1 - 1)), bytes$(od -An -tx1 -j "$((7 * $1 - 7))" -N 7 "$work/call")"
  fi
}

compare_hear() {
  local frames=0 call=0 pieces=(65536 1000 3) piece closing
  prepare hear hear_calls difference
  while ((frames < $1)); do
    piece=${pieces[call % 3]}
    "$work/hear_calls" "$call" "$2" >"$work/call"
    heard "$work/hear" >"$work/expected"
    heard "$proved/hear" >"$work/printed"
    same || fail "hear: seed $2, call $call in pieces of $piece bytes, $(frame_at "${found[0]}")" \
      "expected: ${found[1]}" "printed:  ${found[2]}"
    closing=$(tail -n 2 "$work/printed" | head -n 1)
    closing=${closing#frames=}
    frames=$((frames + ${closing%% *})) call=$((call + 1))
    progress "$frames frames in $call calls"
  done
  echo "hear: $frames frames in $call calls, no difference"
}

# ---- session ----

# wrote PROGRAM: what it writes; frames in hexadecimal, a line for each.
wrote() {
  case $1 in
  */from_session) "$1" | od -An -tx1 -v -w7 ;;
  *) "$1" ;;
  esac
}

# passed FOLDER: what the programs of a folder write for each input, which comes through a pipe in pieces, under a heading;
# then what they write to standard error, their status, and how many bytes they left unread.
passed() {
  local number=0 pieces=(65536 1000 3) piece input program unread
  for input in "$work"/cases/*/*; do
    echo "case ${input#"$work/cases/"}"
    program=${input%/*}
    piece=${pieces[number++ % 3]}
    dd if="$input" bs="$piece" status=none | {
      status=0
      wrote "$1/${program##*/}" 2>"$work/errors" || status=$?
      unread=$(wc -c)
      echo "(on standard error)" && cat "$work/errors"
      echo "(ended with status $status, $unread bytes unread)"
    }
  done
}

# come_back PROGRAM OTHER: what the proved program makes of an input that it does not refuse, the other one must make the
# input of again.
come_back() {
  local input
  for input in "$work/cases/$1"/*; do
    "$proved/$1" <"$input" >"$work/made" 2>"$work/errors"
    [ ! -s "$work/errors" ] || continue
    "$proved/$2" <"$work/made" | cmp -s - "$input" ||
      fail "session: seed $seed, $kind case ${input#"$work/cases/"} does not come back from $2"
  done
}

compare_session() {
  local count=0 kind=spoilt seed=$2 inputs
  prepare from_session session_cases difference
  prepare to_session
  while ((count < $1)); do
    rm -rf "$work/cases" && mkdir "$work/cases"
    "$work/session_cases" "$work/cases" "$kind" "$seed"
    passed "$work" >"$work/expected"
    passed "$proved" >"$work/printed"
    same || fail "session: seed $seed, $kind $(case_at "${found[0]}")" "expected: ${found[1]}" "printed:  ${found[2]}"
    come_back from_session to_session
    come_back to_session from_session
    inputs=("$work"/cases/*/*)
    count=$((count + ${#inputs[@]}))
    if [ "$kind" = random ]; then seed=$((seed + 1)); fi
    kind=random
    progress "$count files"
  done
  echo "session: $count files, no difference"
}

# ---- The call of this script ----

number='^[1-9][0-9]{0,8}$'
if (($# == 0)); then
  compare_vectors 10000 1
  compare_soft 20000 1
  compare_orders 20000 1
  compare_spectrum 1500 1
  compare_hear 100000 1
  compare_session 2000 1
elif [[ $1 =~ ^(vectors|soft|orders|spectrum|hear|session)$ && ${2-} =~ $number && ${3-1} =~ $number && $# -le 3 ]]; then
  "compare_$1" "$2" "${3-1}"
elif [[ $1 == order && -n ${2-} && ${3-} =~ $number && ${4-1} =~ $number && $# -le 4 ]]; then
  compare_order "$2" "$3" "${4-1}"
else
  echo "usage: compare.sh [vectors VECTORS [SEED] | soft VECTORS [SEED] | orders VECTORS [SEED] |" \
    "order FILE VECTORS [SEED] | spectrum INPUTS [SEED] | hear FRAMES [SEED] | session FILES [SEED]]"
  exit 2
fi
