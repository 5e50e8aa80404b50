#!/usr/bin/env bash
# Measures metro on made folders: 1,000, 10,000 and 50,000 small modules that require each other, 64 MB of source in
# 100 files, 5,000 modules of 1 KiB beside `cat` of the same files, and 2,000 modules of 1,000 edges, also by `deps` and `check`;
# a check of 16 MB with 4,096 names that lead nowhere; names of packages, from 5,000 modules, of a package with a file of 16 MB,
# and from 500 folders deep; then replays over 1,000 small modules, of 2,000 edits that are built one by one and of 65,536
# changes; then single modules of many tokens. Run by hand, after `rt ci` has left the program, or with METRO_PROGRAM naming
# another one.
set -eu
top="$(cd "$(dirname "$0")/.." && pwd)"
program="${METRO_PROGRAM:-$top/crates/metro_program/out/metro_program}"
[ -x "$program" ] || { echo "no program at $program: run rt ci first" >&2; exit 1; }
work="$(mktemp -d)"
trap 'rm -rf "$work"' EXIT

# small COUNT FOLDER: modules in folders of 100; each requires the next one and one far away.
small() {
  python3 - "$1" "$2" <<'PY'
import os, sys
count, folder = int(sys.argv[1]), sys.argv[2]
def place(i):
    return "d%d/m%d.js" % (i // 100, i)
for i in range(count):
    path = os.path.join(folder, place(i))
    os.makedirs(os.path.dirname(path), exist_ok=True)
    with open(path, "w") as file:
        for j in ((i + 1) % count, (i * 7919 + 13) % count):
            file.write('require("../%s");\n' % place(j))
        file.write("exports.v = %d;\n" % i)
with open(os.path.join(folder, "index.js"), "w") as file:
    file.write('require("./%s");\n' % place(0))
PY
}

# large COUNT SIZE FOLDER: modules of so many bytes each, all of which the entry requires.
large() {
  python3 - "$1" "$2" "$3" <<'PY'
import os, sys
count, size, folder = int(sys.argv[1]), int(sys.argv[2]), sys.argv[3]
os.makedirs(folder, exist_ok=True)
line = "var value = compute(first, second) + offset; // a line of text\n"
with open(os.path.join(folder, "index.js"), "w") as index:
    # No module has more than 4,096 dependencies, so they are required by way of groups.
    for start in range(0, count, 1000):
        name = "g%d.js" % start
        index.write('require("./%s");\n' % name)
        with open(os.path.join(folder, name), "w") as group:
            for i in range(start, min(count, start + 1000)):
                group.write('require("./m%d.js");\n' % i)
for i in range(count):
    with open(os.path.join(folder, "m%d.js" % i), "w") as file:
        file.write((line * (size // len(line) + 1))[:size - 1] + "\n")
PY
}

# dense COUNT EDGES FOLDER: modules that each require so many others, the next ones in a ring.
dense() {
  python3 - "$1" "$2" "$3" <<'PY'
import os, sys
count, edges, folder = int(sys.argv[1]), int(sys.argv[2]), sys.argv[3]
os.makedirs(folder, exist_ok=True)
for i in range(count):
    with open(os.path.join(folder, "m%d.js" % i), "w") as file:
        for j in range(1, edges + 1):
            file.write('require("./m%d.js");\n' % ((i + j) % count))
with open(os.path.join(folder, "index.js"), "w") as file:
    file.write('require("./m0.js");\n')
PY
}

# named COUNT SIZE FOLDER: one module of so many bytes, with so many names that lead nowhere.
named() {
  python3 - "$1" "$2" "$3" <<'PY'
import os, sys
count, size, folder = int(sys.argv[1]), int(sys.argv[2]), sys.argv[3]
os.makedirs(folder, exist_ok=True)
filler = "var value = compute(first, second) + offset; // a line of text\n"
with open(os.path.join(folder, "index.js"), "w") as file:
    for i in range(count):
        line = 'require("./gone%d.js");\n' % i
        file.write(line + filler * ((size // count - len(line)) // len(filler)))
PY
}

# bare COUNT NAMES FOLDER: modules in folders six deep, each with so many names of packages that stand at the top.
bare() {
  python3 - "$1" "$2" "$3" <<'PY'
import os, sys
count, names, folder = int(sys.argv[1]), int(sys.argv[2]), sys.argv[3]
for i in range(names):
    package = os.path.join(folder, "node_modules", "p%d" % i)
    os.makedirs(package)
    with open(os.path.join(package, "package.json"), "w") as file:
        file.write('{"main":"lib/main"}')
    os.makedirs(os.path.join(package, "lib"))
    with open(os.path.join(package, "lib", "main.js"), "w") as file:
        file.write("1;\n")
with open(os.path.join(folder, "index.js"), "w") as index:
    for start in range(0, count, 1000):
        index.write('require("./g%d.js");\n' % start)
        with open(os.path.join(folder, "g%d.js" % start), "w") as group:
            for i in range(start, min(count, start + 1000)):
                place = "a/b/c/d/e%d/f%d" % (i // 100, i // 10 % 10)
                os.makedirs(os.path.join(folder, place), exist_ok=True)
                group.write('require("./%s/m%d.js");\n' % (place, i))
                with open(os.path.join(folder, place, "m%d.js" % i), "w") as file:
                    for j in range(names):
                        file.write('require("p%d");\n' % j)
                    file.write("// %s\n" % ("x" * 900))
PY
}

# packaged COUNT SIZE FOLDER: modules in folders of their own that require one package, whose package file has so many bytes.
packaged() {
  python3 - "$1" "$2" "$3" <<'PY'
import os, sys
count, size, folder = int(sys.argv[1]), int(sys.argv[2]), sys.argv[3]
os.makedirs(os.path.join(folder, "node_modules", "p"))
with open(os.path.join(folder, "node_modules", "p", "package.json"), "w") as file:
    file.write('{"main":"a.js","text":"%s"}' % ("x" * (size - 27)))
with open(os.path.join(folder, "node_modules", "p", "a.js"), "w") as file:
    file.write("1;\n")
with open(os.path.join(folder, "index.js"), "w") as index:
    for i in range(count):
        os.makedirs(os.path.join(folder, "d%d" % i))
        index.write('require("./d%d/m.js");\n' % i)
        with open(os.path.join(folder, "d%d" % i, "m.js"), "w") as file:
            file.write('require("p");\n')
PY
}

# deep LEVELS NAMES FOLDER: one module so many folders deep, with so many names of packages that aren't there.
deep() {
  python3 - "$1" "$2" "$3" <<'PY'
import os, sys
levels, names, folder = int(sys.argv[1]), int(sys.argv[2]), sys.argv[3]
place = "/".join(["a"] * levels)
os.makedirs(os.path.join(folder, place))
with open(os.path.join(folder, place, "m.js"), "w") as file:
    for i in range(names):
        file.write('require("gone%d");\n' % i)
with open(os.path.join(folder, "index.js"), "w") as index:
    index.write('require("./%s/m.js");\n' % place)
PY
}

# timed FOLDER [COMMAND [SCRIPT [RUNS [ENTRY [STATUS]]]]]: seconds of the fastest run, and the kilobytes of the largest; each has
# to end with STATUS. The peak is asked for as the program runs, since what the system tells of a process that ended counts what
# it was started from, too.
timed() {
  (cd "$1" && python3 - "$program" "${2:-bundle}" "${3:-/dev/null}" "${4:-3}" "${5:-index.js}" "${6:-0}" <<'PY'
import subprocess, sys, time
program, command, script, runs, entry, wanted = sys.argv[1:]
best, peak = None, 0
for _ in range(int(runs)):
    with open(script, "rb") as source:
        start = time.time()
        run = subprocess.Popen([program, command, entry], stdin=source, stdout=subprocess.DEVNULL, stderr=subprocess.DEVNULL)
    last = 0
    while run.poll() is None:
        try:
            with open("/proc/%d/status" % run.pid) as status:
                for line in status:
                    if line.startswith("VmHWM:"):
                        last = int(line.split()[1])
        except OSError:
            pass
        time.sleep(0.0005)
    taken = time.time() - start
    if run.returncode != int(wanted):
        sys.exit("status %d" % run.returncode)
    best = taken if best is None else min(best, taken)
    peak = max(peak, last)
print("%.3f %d" % (best, peak))
PY
  )
}

# cat_of FOLDER: seconds of the fastest of three runs of `cat` over its modules.
cat_of() {
  (cd "$1" && python3 - <<'PY'
import subprocess, time
best = None
for _ in range(3):
    start = time.time()
    subprocess.run("find . -name '*.js*' -print0 | xargs -0 cat", shell=True, stdout=subprocess.DEVNULL, check=True)
    taken = time.time() - start
    best = taken if best is None else min(best, taken)
print("%.3f" % best)
PY
  )
}

first=""
for count in 1000 10000 50000; do
  small "$count" "$work/small$count"
  read -r seconds peak <<<"$(timed "$work/small$count")"
  each="$(python3 -c "print('%.2f' % ($seconds * 1e6 / $count))")"
  [ -n "$first" ] || first="$each"
  ratio="$(python3 -c "print('%.2f' % ($each / $first))")"
  echo "$count modules: $seconds s, $each us a module, $ratio times that at 1000 (wanted at 50000: 2), peak $peak KB"
done

large 100 671088 "$work/large"
read -r seconds peak <<<"$(timed "$work/large")"
bytes="$(cat "$work/large"/*.js | wc -c)"
allowed=$((bytes * 4 / 1024 + 65536))
echo "64 MB in 100 files: $seconds s for $bytes bytes, peak $peak KB (wanted at most $allowed)"

large 5000 1024 "$work/many"
read -r seconds peak <<<"$(timed "$work/many")"
cat_seconds="$(cat_of "$work/many")"
ratio="$(python3 -c "print('%.2f' % ($seconds / $cat_seconds))")"
echo "5000 modules of 1 KiB: $seconds s, cat of the same files $cat_seconds s, ratio $ratio (wanted: 5), peak $peak KB"

dense 2000 1000 "$work/dense"
read -r seconds peak <<<"$(timed "$work/dense")"
echo "2000 modules of 1000 edges each: $seconds s (wanted: 3.6), peak $peak KB (wanted at most 506000)"

for command in deps check; do
  read -r seconds peak <<<"$(timed "$work/dense" "$command")"
  echo "$command of these: $seconds s, peak $peak KB"
done

named 4096 16777216 "$work/named"
read -r seconds peak <<<"$(timed "$work/named" check /dev/null 3 index.js 1)"
echo "check of 16 MB with 4096 names that lead nowhere: $seconds s (wanted: under 1), peak $peak KB"

bare 5000 5 "$work/bare"
read -r seconds peak <<<"$(timed "$work/bare")"
cat_seconds="$(cat_of "$work/bare")"
ratio="$(python3 -c "print('%.2f' % ($seconds / $cat_seconds))")"
echo "5000 modules with 5 names of packages each, six folders deep: $seconds s, cat of the same files $cat_seconds s, ratio $ratio (wanted: 5), peak $peak KB"

packaged 4096 16777216 "$work/packaged"
read -r seconds peak <<<"$(timed "$work/packaged")"
echo "a package file of 16 MB, required from 4096 folders: $seconds s (wanted: under 2), peak $peak KB"

deep 500 4096 "$work/deep"
read -r seconds peak <<<"$(timed "$work/deep" bundle /dev/null 2 index.js 1)"
echo "4096 names of packages that are not there, 500 folders deep: $seconds s, peak $peak KB"

# replayed NAME SCRIPT BUILDS: a replay over the 1,000 small modules, beside BUILDS bundles and a replay of `end` alone.
replayed() {
  local seconds peak ratio allowed
  read -r seconds peak <<<"$(timed "$work/small1000" replay "$2" 1)"
  ratio="$(python3 -c "print('%.2f' % ($seconds / ($3 * $bundle_seconds)))")"
  allowed=$((2 * end_peak + $(wc -c <"$2") / 1024))
  echo "$1: $seconds s, $ratio times $3 bundles (wanted: 1), peak $peak KB (wanted at most $allowed)"
}

read -r bundle_seconds peak <<<"$(timed "$work/small1000")"
echo end >"$work/end"
read -r end_seconds end_peak <<<"$(timed "$work/small1000" replay "$work/end")"
echo "a replay of end alone over 1000 modules: $end_seconds s, a bundle $bundle_seconds s, peak $end_peak KB"

# edits COUNT MODULES BUILD: a script of so many puts, of the modules in turn, with what BUILD says behind each.
edits() {
  python3 - "$@" <<'PY'
import sys
count, modules, build = int(sys.argv[1]), int(sys.argv[2]), sys.argv[3]
def place(i):
    return "d%d/m%d.js" % (i // 100, i)
for edit in range(count):
    i = edit % modules
    text = "".join('require("../%s");\n' % place(j) for j in ((i + 1) % 1000, (i * 7919 + 13) % 1000))
    text += "exports.v = %d;\n" % (edit + 1000)
    print("put /%s %d\n%s" % (place(i), len(text), text))
    if build:
        print(build)
print("build\nend")
PY
}

edits 2000 1 build >"$work/edits"
replayed "2000 edits of one module with a build each" "$work/edits" 2001
edits 65536 1000 "" >"$work/changes"
replayed "65536 changes of 1000 modules with one build" "$work/changes" 2

# repeated NAME STATUS FIRST HEAD MIDDLE TAIL [ENTRY]: one module of 8 and one of 16 MB, of FIRST, HEAD so many times, MIDDLE, and
# TAIL as often. Each is bundled, with this STATUS.
repeated() {
  local size seconds peak half entry
  half=""
  entry="${7:-index.js}"
  rm -rf "$work/repeated"
  mkdir -p "$work/repeated"
  for size in 8388608 16777216; do
    python3 - "$work/repeated/$entry" "$size" "$3" "$4" "$5" "$6" <<'PY'
import sys
path, size, first, head, middle, tail = sys.argv[1:]
count = (int(size) - len((first + middle).encode())) // len((head + tail).encode())
with open(path, "w", encoding="utf-8") as file:
    file.write(first + head * count + middle + tail * count)
PY
    read -r seconds peak <<<"$(timed "$work/repeated" bundle /dev/null 2 "$entry" "$2")"
    [ -n "$half" ] || half="$seconds"
  done
  echo "$1: $seconds s for 16 MB, $(python3 -c "print('%.2f' % ($seconds / $half))") times 8 MB (wanted: 2.2), peak $peak KB"
}

repeated '`;`' 0 '' ';' '' ''
repeated '`a;`' 0 '' 'a;' '' ''
repeated 'divisions after parentheses' 0 '' '(1)/a/' '1' ''
repeated 'regular expressions after blocks' 0 '' '{}/a/g;' '' ''
repeated 'divisions after comments' 0 '' '/**/ /**/x/ ' '1' ''
repeated 'nested templates' 0 '' '`${' '1' '}`'
repeated 'nested templates, unclosed' 1 '' '`${' '' ''
repeated 'nested parentheses' 0 '' '(' '1' ')'
repeated 'a name above U+007F' 0 '' 'é' '' ''
repeated 'a name of escapes' 0 '' '\u{e9}' '' ''
repeated 'nested functions with values of parameters' 0 '' 'function(a=' '1' '){}'
repeated '`require("a")`' 1 '' 'require("a")' '' ''
repeated '`require("a")` with comments' 1 '' 'require/**/(/**/"a"/**/)' '' ''
repeated '`export var a,a,..`' 0 'export var a' ',a' '' ''
repeated 'JSON' 0 '["a"' ',{"b":[1.5,null]}' ']' '' index.json
repeated 'JSON nested 127 deep' 0 '[0' ",$(printf '[%.0s' {1..126})$(printf ']%.0s' {1..126})" ']' '' index.json
repeated 'JSON nested 128 deep' 1 '[0' ",$(printf '[%.0s' {1..127})$(printf ']%.0s' {1..127})" ']' '' index.json
