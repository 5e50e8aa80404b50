# Calls of the system that fail, one at a time: a run ends where one fails, and no line is lost that was due before.

# faulty KIND AT FOLDER WORD..: runs the program in FOLDER with the script in the file `script`, while the AT-th call of this
# KIND fails (`checks/faulty.c`). Leaves its status in `got`, and the file `mark` where that call came.
faulty() {
  local kind="$1" at="$2" place="$3"
  shift 3
  rm -f "$work/mark"
  (cd "$place" && exec timeout 60 env LD_PRELOAD="$work/faulty.so" FAULT_IN="$kind" FAULT_AT="$at" FAULT_MARK="$work/mark" \
    FAULT_PIECE="${piece:-}" FAULT_ROOM="${room:-}" "$program" "$@") >"$work/out" 2>"$work/log" <"$work/script"
  got=$?
}

# is_left STATUS OUT: whether a run left this status, what the file OUT has, and the log that is wanted.
is_left() {
  [ "$got" -eq "$1" ] && cmp -s "$work/out" "$2" && cmp -s "$work/log" "$work/line"
}

# tell NAME: counts the check as passed where `holds` is true.
tell() {
  if [ "$holds" = true ]; then
    passed=$((passed + 1))
  else
    failed=$((failed + 1))
    echo "failed: $1 (call $at, status $got)"
    head -c 400 "$work/log"
  fi
}

# first_lines COUNT: leaves the first lines of the file `whole` in the file `wanted`.
first_lines() {
  head -n "$1" "$work/whole" >"$work/wanted"
}

# each_read NAME FOLDER WORD..: each read of the script ends the run, after the lines of the builds that were read whole. A
# read gives one byte.
each_read() {
  local name="$1" builds
  shift
  holds=true
  piece=1
  log_is "metro: read failed"
  for ((at = 1; at <= $(wc -c <"$work/script"); at++)); do
    builds="$(head -c $((at - 1)) "$work/script" | tr '\n' '#' | grep -o 'build#' | wc -l)"
    first_lines $((builds + 1))
    faulty script "$at" "$@"
    is_left 3 "$work/wanted" && [ -e "$work/mark" ] || { holds=false; break; }
  done
  log_is ""
  if "$holds"; then
    faulty script "$at" "$@"
    is_left "$sound" "$work/whole" && [ ! -e "$work/mark" ] || holds=false
  fi
  piece=
  tell "$name"
}

# A run that no call fails ends with this status.
sound=0

# each_call NAME PHASES FOLDER WORD..: each call of the folder ends the run. The folder is read whole in each of the phases,
# whose numbers of lines before them are given, as often in one as in another.
each_call() {
  local name="$1" phases="$2" ends=() phase=0 calls
  shift 2
  read -r -a ends <<<"$phases"
  log_is ""
  faulty folder 0 "$@"
  is_left "$sound" "$work/whole" && holds=true || holds=false
  for ((at = 1; at <= 1000; at++)); do
    faulty folder "$at" "$@"
    [ -e "$work/mark" ] || break
  done
  calls=$(((at - 1) / ${#ends[@]}))
  [ "$calls" -ge 2 ] && [ $((calls * ${#ends[@]})) -eq $((at - 1)) ] && is_left "$sound" "$work/whole" || holds=false
  log_is "metro: read failed"
  for ((at = 1; at <= calls * ${#ends[@]}; at++)); do
    "$holds" || break
    phase=$(((at - 1) / calls))
    first_lines "${ends[phase]}"
    faulty folder "$at" "$@"
    is_left 3 "$work/wanted" || holds=false
  done
  tell "$name"
}

# is_cut: whether a run ended with a fault of the output, which took a prefix of what the file `whole` has, and not all of it.
is_cut() {
  taken="$(wc -c <"$work/out")"
  [ "$got" -eq 4 ] && [ "$taken" -lt "$(wc -c <"$work/whole")" ] && cmp -s -n "$taken" "$work/out" "$work/whole" &&
    cmp -s "$work/log" "$work/line"
}

# each_write NAME FOLDER WORD..: each write of the output ends the run; each takes something.
each_write() {
  local name="$1" before=-1
  shift
  holds=true
  for ((at = 1; at <= 1000; at++)); do
    log_is "metro: write failed"
    faulty output "$at" "$@"
    [ -e "$work/mark" ] || break
    is_cut && [ "$taken" -gt "$before" ] || { holds=false; break; }
    before="$taken"
  done
  log_is ""
  if "$holds"; then is_left "$sound" "$work/whole" && [ "$at" -gt 1 ] || holds=false; fi
  tell "$name"
}

# each_room NAME FOLDER WORD..: an output that is full takes what it has room for.
each_room() {
  local name="$1"
  shift
  holds=true
  log_is "metro: write failed"
  for ((at = 0; at < $(wc -c <"$work/whole"); at++)); do
    room="$at"
    faulty output 0 "$@"
    is_cut && [ "$taken" -eq "$at" ] || { holds=false; break; }
  done
  log_is ""
  if "$holds"; then
    room="$at"
    faulty output 0 "$@"
    is_left "$sound" "$work/whole" || holds=false
  fi
  room=
  tell "$name"
}

program="$top/crates/metro_program/out/metro_program"
if ! cc -O1 -shared -fPIC -o "$work/faulty.so" "$top/checks/faulty.c" 2>"$work/log"; then
  skip "calls of the system that fail" "a C compiler and glibc are not to be had"
else
  # A bundle of two files in two folders.
  : >"$work/script"
  folder="$work/calls"
  mkdir -p "$folder/lib"
  printf 'require("./lib/b.js");' >"$folder/a.js"
  printf '1;' >"$folder/lib/b.js"
  bundle_of 'require(dependencyMap[0]);' 1 a.js '1;' '' lib/b.js >"$work/whole"
  each_call "each call of the folder ends a bundle" 0 "$folder" bundle a.js
  each_write "each write of the output ends a bundle" "$folder" bundle a.js
  each_room "an output that is full takes what it has room for of a bundle" "$folder" bundle a.js

  # The graph of these files, and a check that finds nothing.
  printf '0 0 1 1 /a.js\n1 0 0 /lib/b.js\n' >"$work/whole"
  each_call "each call of the folder ends a graph" 0 "$folder" deps a.js
  each_write "each write of the output ends a graph" "$folder" deps a.js
  each_room "an output that is full takes what it has room for of a graph" "$folder" deps a.js
  echo 'ok 2 0' >"$work/whole"
  each_call "each call of the folder ends a check" 0 "$folder" check a.js
  each_write "each write of the output ends a check" "$folder" check a.js
  each_room "an output that is full takes what it has room for of a check" "$folder" check a.js

  # A check that finds faults.
  folder="$work/calls-faulty"
  files_in "$folder" a.js 'require("./n.js");require("./lib/b.js");' lib/b.js '('
  printf '/a.js:8: cannot resolve "./n.js"\n/lib/b.js:0: syntax: unbalanced bracket\n' >"$work/whole"
  sound=1
  each_call "each call of the folder ends a check of faults" 0 "$folder" check a.js
  each_write "each write of the output ends a check of faults" "$folder" check a.js
  each_room "an output that is full takes what it has room for of faults" "$folder" check a.js
  sound=0

  # A replay of a lone entry.
  folder="$work/calls-lone"
  files_in "$folder" index.js '1;'
  {
    bundle_of '1;' '' index.js | line "$first"
    echo "same 1"
    bundle_of '2;' '' index.js | line "revision 2 changes 1 modules 1 added 0 modified 1 deleted 0"
    echo "refused changes 2 /index.js:0: syntax: unbalanced bracket"
    bundle_of '11;' '' index.js | line "revision 3 changes 3 modules 1 added 0 modified 1 deleted 0"
  } >"$work/whole"
  printf 'build\nput /index.js 2\n2;\nbuild\nput /index.js 1\n(\nbuild\nput /index.js 3\n11;\nbuild\nend\n' >"$work/script"
  each_read "each read of the script ends a replay" "$folder" replay index.js
  each_write "each write of the output ends a replay" "$folder" replay index.js
  each_room "an output that is full takes what it has room for of a replay" "$folder" replay index.js

  # A change that brings nothing, and a build that is refused as the last one read.
  {
    bundle_of '1;' '' index.js | line "$first"
    bundle_of '1;' '' index.js | line "revision 2 changes 1 modules 1 added 0 modified 0 deleted 0"
  } >"$work/whole"
  printf 'del /x.js\nbuild\nend\n' >"$work/script"
  each_read "a read that fails loses no line of a change that brings nothing" "$folder" replay index.js

  {
    bundle_of '1;' '' index.js | line "$first"
    echo "refused changes 1 entry /index.js is not a source file"
  } >"$work/wanted"
  printf 'del /index.js\nbuild\nend\n' >"$work/script"
  piece=1
  at=$(($(printf 'del /index.js\nbuild\n' | wc -c) + 1))
  log_is "metro: read failed"
  faulty script "$at" "$folder" replay index.js
  is_left 3 "$work/wanted" && holds=true || holds=false
  piece=
  tell "a read that fails loses no line of a refused build"

  # Where a rescan fails, a bad command after it is not reached, and one before the end of the folder's calls is.
  bundle_of '1;' '' index.js | line "$first" >"$work/whole"
  printf 'end\n' >"$work/script"
  each_call "each call of the folder ends a replay" 0 "$folder" replay index.js
  calls=$((at - 1))
  printf 'rescan\nno command\nrescan\n' >"$work/script"
  for ((at = calls + 1; at <= 2 * calls; at++)); do
    log_is "metro: read failed"
    faulty folder "$at" "$folder" replay index.js
    is_left 3 "$work/whole" && holds=true || { holds=false; break; }
  done
  tell "a rescan that fails ends the run before a bad command"
  log_is "metro: script command 2"
  faulty folder "$at" "$folder" replay index.js
  is_left 7 "$work/whole" && [ ! -e "$work/mark" ] && holds=true || holds=false
  tell "a bad command ends the run before a rescan that would fail"

  (cd "$folder" && exec timeout 60 env LD_PRELOAD="$work/faulty.so" FAULT_IN=folder FAULT_AT="$((calls + 1))" FAULT_MARK="$work/mark" \
    "$program" replay index.js) >"$work/out" 2>/dev/full <"$work/script"
  got=$?
  : >"$work/log"
  log_is ""
  is_left 3 "$work/whole" && holds=true || holds=false
  tell "a fault of the log leaves the status of a rescan that failed"

  # Two files, and two rescans between the builds.
  folder="$work/calls-two"
  files_in "$folder" index.js 'require("./a.js");' a.js '1;'
  bundle_of 'require(dependencyMap[0]);' 1 index.js '1;' '' a.js >"$work/two"
  {
    line "revision 1 changes 0 modules 2 added 2 modified 0 deleted 0" <"$work/two"
    echo "same 1"
    echo "same 1"
    line "revision 2 changes 1 modules 2 added 0 modified 0 deleted 0" <"$work/two"
    echo "same 2"
  } >"$work/whole"
  printf 'build\nrescan\nbuild\ndel /x.js\nbuild\nrescan\nbuild\nend\n' >"$work/script"
  each_call "each call of the folder ends a replay with rescans" "0 2 4" "$folder" replay index.js
fi
