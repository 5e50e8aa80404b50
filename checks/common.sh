# What the checks share; `checks/run` reads it first. It wants `top`, the top of the repository, and `work`, an empty folder.
metro="$top/bin/metro"
passed=0
failed=0
skipped=0
: >"$work/empty"

# judge NAME STATUS GOT OUT: whether a run ended with STATUS, and left on its output what the file OUT has and on its log
# what the file `line` has.
judge() {
  local name="$1" status="$2" got="$3" out="$4"
  if [ "$got" -eq "$status" ] && cmp -s "$work/out" "$out" && cmp -s "$work/log" "$work/line"; then
    passed=$((passed + 1))
  else
    failed=$((failed + 1))
    echo "failed: $name (status $got, wanted $status; $(wc -c <"$work/out") bytes, wanted $(wc -c <"$out"))"
    head -c 400 "$work/log"
  fi
}

# skip NAME REASON: notes that a check couldn't be made here.
skip() {
  skipped=$((skipped + 1))
  echo "skipped: $1 ($2)"
}

# log_is LINE: the log that is wanted: this line, or nothing where it is empty.
log_is() {
  if [ -n "$1" ]; then printf '%s\n' "$1" >"$work/line"; else : >"$work/line"; fi
}

# check NAME STATUS OUT LINE FOLDER WORD..: runs the program in FOLDER. Its output is to be what the file OUT has, and its
# log LINE, or nothing where LINE is empty.
check() {
  local name="$1" status="$2" out="$3" folder="$5"
  log_is "$4"
  shift 5
  (cd "$folder" && exec timeout 60 "$metro" "$@") >"$work/out" 2>"$work/log" </dev/null
  judge "$name" "$status" "$?" "$out"
}

# bundle_of [BODY NUMBERS NAME]..: prints the bundle of these modules, numbered from 0. NUMBERS are those of the module's
# dependencies, joined by `,`. The prelude is that of the example's bundle.
bundle_of() {
  local number=0
  sed '/^__d(/,$d' "$top/checks/hello.bundle.js"
  while [ "$#" -ge 3 ]; do
    printf '__d(function (global, require, importDefault, importAll, module, exports, dependencyMap) {\n'
    printf '%s\n},%d,[%s],"%s");\n' "$1" "$number" "$2" "$3"
    number=$((number + 1))
    shift 3
  done
  printf '__r(0);\n'
}

# files_in FOLDER [NAME BODY]..: makes FOLDER with these files, and the folders that their names name.
files_in() {
  local folder="$1"
  shift
  mkdir -p "$folder"
  while [ "$#" -ge 2 ]; do
    case "$1" in */*) mkdir -p "$folder/${1%/*}" ;; esac
    printf '%s' "$2" >"$folder/$1"
    shift 2
  done
}
