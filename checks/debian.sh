#!/usr/bin/env bash
# Reads each JavaScript file that four of Debian's packages install by `check`, and names each fault of syntax that
# `node --check` doesn't have. By hand; wants apt-get, dpkg, node and the network.
set -eu
top="$(cd "$(dirname "$0")/.." && pwd)"
program="${METRO_PROGRAM:-$top/crates/metro_program/out/metro_program}"
[ -x "$program" ] || { echo "no program at $program: run rt ci first" >&2; exit 1; }
work="$(mktemp -d)"
trap 'rm -rf "$work"' EXIT

cd "$work"
apt-get download -qq node-acorn node-lodash node-react libjs-three 2>/dev/null
for package in *.deb; do
  mkdir -p "$work/files/${package%%_*}"
  dpkg -x "$package" "$work/files/${package%%_*}"
done
cd "$work/files"
find . \( -name '*.js' -o -name '*.mjs' -o -name '*.cjs' \) -type f | LC_ALL=C sort >"$work/names"
sed 's/.*/require("&");/' "$work/names" >all.cjs

status=0
"$program" check all.cjs >"$work/lines" 2>"$work/log" || status=$?
if [ "$status" -ne 1 ] || [ -s "$work/log" ] || grep -q '^/all.cjs:' "$work/lines"; then
  echo "the files were not all read (status $status)"
  head -c 400 "$work/log"
  exit 1
fi
grep -v ': cannot resolve "' "$work/lines" >"$work/faults" || true
differences=0
while IFS= read -r line; do
  path="${line%%:*}"
  if node --check ".$path" >"$work/node" 2>&1; then
    differences=$((differences + 1))
    echo "node has no fault: $line"
  fi
done <"$work/faults"
echo "$(wc -l <"$work/names") files read, $(wc -l <"$work/faults") faults of syntax, $differences that node does not have"
[ "$differences" -eq 0 ]
