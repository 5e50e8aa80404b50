#!/usr/bin/env bash
# No chain of crates is longer than eight, now and with all the crates that are planned: reads crates.txt and
# checks/planned-crates.txt, prints the length of the longest chain of each, and one longest chain. Fails above eight, on
# a cycle, and on a planned crate that stands on a crate that neither file has.
set -u
top="$(cd "$(dirname "$0")/.." && pwd)" || exit 1

# longest FILE..: the longest chain of the crates of these files. A line `NAME: CRATE..` counts where no earlier line has
# the name; `NAME + CRATE..` adds to it. Names that start no line are libraries of the toolchain.
longest() {
  awk '
    /^ *(#|$)/ { next }
    $2 == "+" { for (i = 3; i <= NF; i++) below[$1] = below[$1] " " $i; next }
    {
      name = $1
      sub(/:$/, "", name)
      if (name in here) next
      here[name] = 1
      for (i = 2; i <= NF; i++) if ($i != ":" && $i != "staticlib:") below[name] = below[name] " " $i
    }
    function height(name, depth,   i, n, parts, best, h) {
      if (name in high) return high[name]
      if (depth > 100) { print "a cycle at " name; bad = 1; exit 1 }
      n = split(below[name], parts, " ")
      best = 0
      for (i = 1; i <= n; i++) {
        if (parts[i] ~ /^(mt_|metro_|checks_)/ && !(parts[i] in here)) {
          print name " stands on " parts[i] ", which no line has"
          bad = 1
          exit 1
        }
        if (!(parts[i] in here)) continue
        h = height(parts[i], depth + 1)
        if (h > best) { best = h; next_of[name] = parts[i] }
      }
      high[name] = best + 1
      return high[name]
    }
    END {
      if (bad) exit 1
      top = 0
      for (name in here) {
        h = height(name, 0)
        if (h > top || (h == top && name < first)) { top = h; first = name }
      }
      line = first
      for (name = first; name in next_of; name = next_of[name]) line = line " > " next_of[name]
      print top " crates: " line
      exit (top > 8)
    }' "$@"
}

status=0
printf 'now: '
longest "$top/crates.txt" || status=1
printf 'planned: '
longest "$top/crates.txt" "$top/checks/planned-crates.txt" || status=1
exit "$status"
