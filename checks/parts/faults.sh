# Faults of the folder and of the streams.
folder="$work/faults"
mkdir -p "$folder"
printf '1;' >"$folder/small.js"
yes '// a line of text' | head -n 8192 >"$folder/many.js"
printf '1;' >>"$folder/many.js"

# A full device as the output, and as the log.
(cd "$folder" && exec timeout 60 "$metro" bundle small.js) >/dev/full 2>"$work/log" </dev/null
got=$?
: >"$work/out"
log_is "metro: write failed"
judge "a full output is a fault" 4 "$got" "$work/empty"

bundle_of '1;' '' small.js >"$work/wanted"
(cd "$folder" && exec timeout 60 "$metro" bundle small.js) >"$work/out" 2>/dev/full </dev/null
got=$?
: >"$work/log"
log_is ""
judge "a full log changes nothing" 0 "$got" "$work/wanted"
(cd "$folder" && exec timeout 60 "$metro" bundle gone.js) >"$work/out" 2>/dev/full </dev/null
judge "a fault of the log changes no status" 1 "$?" "$work/empty"
(cd "$folder" && exec timeout 60 "$metro" bundle -a.js) >"$work/out" 2>/dev/full </dev/null
judge "a fault of the log leaves the status of a bad word" 2 "$?" "$work/empty"
(cd "$folder" && exec timeout 60 "$metro" bundle small.js) >/dev/full 2>/dev/full </dev/null
got=$?
: >"$work/out"
judge "a fault of the log leaves the status of a fault of the output" 4 "$got" "$work/empty"

# A reader that goes away after the first byte: the bundle is more than a pipe holds.
{
  (cd "$folder" && exec timeout 60 "$metro" bundle many.js) 2>"$work/log" </dev/null
  echo "$?" >"$work/status"
} | head -c 1 >"$work/out"
printf 'v' >"$work/wanted"
log_is "metro: write failed"
judge "a closed pipe is a fault" 4 "$(cat "$work/status")" "$work/wanted"

# With a bundle that a pipe holds, the reader may go away before or after the last write.
{
  (cd "$folder" && exec timeout 60 "$metro" bundle small.js) 2>"$work/log" </dev/null
  echo "$?" >"$work/status"
} | head -c 1 >"$work/out"
got="$(cat "$work/status")"
if [ "$got" -eq 0 ]; then log_is ""; else log_is "metro: write failed"; fi
if [ "$got" -eq 0 ] || [ "$got" -eq 4 ]; then
  judge "a small bundle into a closed pipe ends" "$got" "$got" "$work/wanted"
else
  judge "a small bundle into a closed pipe ends" 0 "$got" "$work/wanted"
fi

# A folder and files that may not be read. The root may read all, so it runs a copy of the program as nobody.
folder="$work/locked"
files_in "$folder/one" index.js '1;'
files_in "$folder/two" index.js '1;' other.js '1;'
files_in "$folder/three" a.js ' '
files_in "$folder/four" b.js ' '
head -c 16777217 /dev/zero | tr '\0' ' ' | tee "$folder/three/b.js" >"$folder/four/a.js"
mkdir -p "$folder/one/inner"
chmod 000 "$folder/one/inner" "$folder/two/other.js" "$folder/three/a.js" "$folder/four/b.js"

# locked FOLDER WORD..: runs the program in FOLDER, and leaves its status in `got`.
locked() {
  local place="$folder/$1"
  shift
  (cd "$place" && exec "${as_nobody[@]}" timeout 60 "$work/metro" "$@") >"$work/out" 2>"$work/log" </dev/null
  got=$?
}

# locked_words LINE WORD..: these words are refused with this LINE where the folder and the script can't be read, and the
# output can't be written.
locked_words() {
  log_is "$1"
  shift
  (cd "$folder/one" && exec "${as_nobody[@]}" timeout 60 "$work/metro" "$@") >/dev/full 2>"$work/log" <&-
  got=$?
  : >"$work/out"
  judge "words are refused before anything is read: $*" 2 "$got" "$work/empty"
}

as_nobody=()
if [ "$(id -u)" -eq 0 ]; then as_nobody=(setpriv --reuid=65534 --regid=65534 --clear-groups); fi
cp "$top/crates/metro_program/out/metro_program" "$work/metro"
chmod 755 "$work" "$work/metro" "$folder" "$folder"/*
if [ "$(id -u)" -ne 0 ] || "${as_nobody[@]}" test -x "$work/metro" 2>/dev/null; then
  log_is "metro: read failed"
  locked one bundle index.js
  judge "a folder without permission is a fault" 3 "$got" "$work/empty"
  locked two bundle index.js
  judge "a file without permission is a fault" 3 "$got" "$work/empty"
  locked two bundle gone.js
  judge "a fault of the folder comes before a refused build" 3 "$got" "$work/empty"
  for command in deps check; do
    locked one $command index.js
    judge "a folder without permission is a fault of $command" 3 "$got" "$work/empty"
    locked two $command gone.js
    judge "a file without permission is a fault of $command" 3 "$got" "$work/empty"
  done

  # The folder is listed, and then the files are read by their paths.
  locked three bundle gone.js
  judge "a file without permission comes before a later one that is too large" 3 "$got" "$work/empty"
  log_is "metro: limit file 16777216"
  locked four bundle gone.js
  judge "a file that is too large comes before a later one without permission" 6 "$got" "$work/empty"

  locked_words "metro: word 2" bundle
  locked_words "metro: word 2" replay
  locked_words "metro: word 2" deps
  locked_words "metro: word 3" check index.js /
  locked_words "metro: word 2" replay -a.js
  locked_words "metro: word 3" replay index.js /

  (cd "$folder/one" && exec "${as_nobody[@]}" timeout 60 "$work/metro" bundle index.js) >"$work/out" 2>/dev/full </dev/null
  got=$?
  : >"$work/log"
  log_is ""
  judge "a fault of the log leaves the status of a fault of the folder" 3 "$got" "$work/empty"
else
  skip "what can't be read is a fault" "the root reads all, and setpriv is not to be had"
fi
