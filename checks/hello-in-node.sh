#!/usr/bin/env bash
# Runs the bundle of examples/hello in node, and the files themselves: both print checks/hello.out. Wants node; by hand.
set -u
top="$(cd "$(dirname "$0")/.." && pwd)" || exit 1
cd "$top/examples/hello" || exit 1
bundled="$("$top/bin/metro" bundle index.js | node)" || exit 1
plain="$(node index.js)" || exit 1
wanted="$(cat "$top/checks/hello.out")"
if [ "$bundled" = "$wanted" ] && [ "$plain" = "$wanted" ]; then
  echo "the bundle prints what the files print"
else
  echo "the outputs differ"
  exit 1
fi
