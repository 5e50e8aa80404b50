#!/usr/bin/env bash
# Refuses memory at the N-th allocation of each command over a small folder, for each N: the run ends with 5 and a
# prefix of its output, or as it does with ample memory, and a run after all of them is as with ample memory. By hand, after
# `rt ci` has left the program: it wants a C compiler and glibc, since a small library stands before the program's malloc.
#
#   checks/refuse-memory.sh [FIRST [LAST [STEP]]]
#
# Without LAST it ends at the first N that no allocation has. METRO_PROGRAM names another program.
set -u
top="$(cd "$(dirname "$0")/.." && pwd)" || exit 1
first="${1:-1}"
last="${2:-1000000}"
step="${3:-1}"
program="${METRO_PROGRAM:-$top/crates/metro_program/out/metro_program}"
[ -x "$program" ] || { echo "no program at $program: run rt ci first" >&2; exit 1; }
work="$(mktemp -d)"
trap 'rm -rf "$work"' EXIT

cc -O1 -shared -fPIC -o "$work/faulty.so" "$top/checks/faulty.c" || exit 1

mkdir "$work/folder"
printf 'require("./b.js");' >"$work/folder/index.js"
printf '1;' >"$work/folder/b.js"
printf 'put /b.js 1\n(\nbuild\nrescan\nbuild\nbuild\ndel /b.js\nput /index.js 2\n2;\nbuild\nend\n' >"$work/script"

# run COMMAND NAME N: one run with the N-th allocation refused, or none at 0; what it leaves goes to files under NAME.
run() {
  (cd "$work/folder" && exec timeout 60 env LD_PRELOAD="$work/faulty.so" FAULT_IN=memory FAULT_AT="$3" \
    FAULT_MARK="$work/$2.mark" "$program" "$1" index.js) >"$work/$2.out" 2>"$work/$2.log" <"$work/script"
  echo "$?" >"$work/$2.status"
}

# judge NAME AMPLE: whether a run is as it may be, beside the one with ample memory.
judge() {
  local size status
  size="$(wc -c <"$work/$1.out")"
  status="$(cat "$work/$1.status")"
  case "$status" in
    5) [ "$size" -le "$(wc -c <"$work/$2.out")" ] && cmp -s -n "$size" "$work/$1.out" "$work/$2.out" &&
      grep -qx 'metro: out of memory' "$work/$1.log" ;;
    *) [ "$status" = "$(cat "$work/$2.status")" ] && cmp -s "$work/$1.out" "$work/$2.out" &&
      cmp -s "$work/$1.log" "$work/$2.log" ;;
  esac
}

failed=0
for command in bundle deps check replay; do
  refused=0
  passed=0
  n="$first"
  run "$command" ample 0
  if [ "$(cat "$work/ample.status")" != 0 ]; then
    cat "$work/ample.log"
    echo "the $command with ample memory failed"
    exit 1
  fi
  while [ "$n" -le "$last" ]; do
    rm -f "$work/one.mark"
    run "$command" one "$n"
    [ -e "$work/one.mark" ] || break
    if ! judge one ample; then
      failed=$((failed + 1))
      echo "failed: $command, allocation $n (status $(cat "$work/one.status"))"
      head -c 400 "$work/one.log"
    elif [ "$(cat "$work/one.status")" = 5 ]; then
      refused=$((refused + 1))
    else
      passed=$((passed + 1))
    fi
    n=$((n + step))
  done
  run "$command" again 0
  if ! judge again ample; then
    failed=$((failed + 1))
    echo "failed: the $command after all of them"
  fi
  echo "memory: $command, allocations $first to $((n - step)) by $step: $refused runs ended with 5, $passed as with ample memory"
done
echo "memory: $failed failed"
[ "$failed" -eq 0 ]
