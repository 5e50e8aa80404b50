# Replays: the lines of their builds, and how they end.

# line TEXT: prints the line of a build: TEXT, and the length and the digest of the bundle on the input.
line() {
  cat >"$work/bundle"
  printf '%s bytes %d digest %s\n' "$1" "$(wc -c <"$work/bundle")" "$(sha256sum <"$work/bundle" | cut -d ' ' -f 1)"
}

# bundle_with [BODY NUMBER NUMBERS NAME]..: prints the bundle of these modules, whose numbers are given.
bundle_with() {
  bundle_of | sed '$d'
  while [ "$#" -ge 4 ]; do
    printf '__d(function (global, require, importDefault, importAll, module, exports, dependencyMap) {\n'
    printf '%s\n},%d,[%s],"%s");\n' "$1" "$2" "$3" "$4"
    shift 4
  done
  printf '__r(0);\n'
}

# replay NAME STATUS LINE FOLDER: runs `replay index.js` in FOLDER with the script in the file `script`. Its output is to
# be what the file `wanted` has, and its log LINE, or nothing where LINE is empty.
replay() {
  log_is "$3"
  (cd "$4" && exec timeout 60 "$metro" replay index.js) >"$work/out" 2>"$work/log" <"$work/script"
  judge "$1" "$2" "$?" "$work/wanted"
}

# replay_open NAME STATUS LINE FOLDER: as `replay`, but the script stays open after what the file `script` has: a run that
# reads on doesn't end.
mkfifo "$work/open"
replay_open() {
  log_is "$3"
  exec 8<>"$work/open"
  cat "$work/script" >&8
  (cd "$4" && exec timeout 60 "$metro" replay index.js) >"$work/out" 2>"$work/log" <"$work/open" 8>&-
  judge "$1" "$2" "$?" "$work/wanted"
  exec 8>&-
}

# replay_logless NAME STATUS FOLDER: as `replay`, but the log fails.
replay_logless() {
  (cd "$3" && exec timeout 60 "$metro" replay index.js) >"$work/out" 2>/dev/full <"$work/script"
  local got=$?
  : >"$work/log"
  log_is ""
  judge "a fault of the log changes no status of a replay: $1" "$2" "$got" "$work/wanted"
}

first="revision 1 changes 0 modules 1 added 1 modified 0 deleted 0"
required='require(dependencyMap[0]);'

# A circle that is left and entered again: its paths keep their numbers.
folder="$work/circle"
mkdir -p "$folder"
printf 'require("./a.js");' >"$folder/index.js"
printf 'require("./b.js");' >"$folder/a.js"
printf 'require("./c.js");' >"$folder/b.js"
printf 'require("./a.js");' >"$folder/c.js"
{
  bundle_with "$required" 0 1 index.js "$required" 1 2 a.js "$required" 2 3 b.js "$required" 3 1 c.js |
    line "revision 1 changes 0 modules 4 added 4 modified 0 deleted 0"
  bundle_of '1;' '' index.js | line "revision 2 changes 1 modules 1 added 0 modified 1 deleted 3"
  bundle_with "$required" 0 2 index.js "$required" 1 2 a.js "$required" 2 3 b.js "$required" 3 1 c.js |
    line "revision 3 changes 2 modules 4 added 3 modified 1 deleted 0"
} >"$work/wanted"
printf 'put /index.js 2\n1;\nbuild\nput /index.js 18\nrequire("./b.js");\nbuild\nend\n' >"$work/script"
replay "a circle that is left and entered again keeps its numbers" 0 "" "$folder"

# A module that is no longer reached.
folder="$work/left"
mkdir -p "$folder"
printf 'require("./a.js");' >"$folder/index.js"
printf '1;' >"$folder/a.js"
{
  bundle_of "$required" 1 index.js '1;' '' a.js | line "revision 1 changes 0 modules 2 added 2 modified 0 deleted 0"
  bundle_of '0;' '' index.js | line "revision 2 changes 2 modules 1 added 0 modified 1 deleted 1"
} >"$work/wanted"
printf 'put /a.js 1\n"\nput /index.js 2\n0;\nbuild\nend\n' >"$work/script"
replay "a module that is no longer reached is not judged" 0 "" "$folder"

# A lone entry, on which the next ones stand.
folder="$work/lone"
mkdir -p "$folder"
printf '1;' >"$folder/index.js"
bundle_of '1;' '' index.js | line "$first" >"$work/opened"
unresolved='/index.js:8: cannot resolve "./x.js"'

{
  cat "$work/opened"
  echo "refused changes 1 $unresolved"
  bundle_of "$required" 1 index.js '1;' '' x.js | line "revision 2 changes 2 modules 2 added 1 modified 1 deleted 0"
} >"$work/wanted"
printf 'put /index.js 18\nrequire("./x.js");\nbuild\nput /x.js 2\n1;\nbuild\nend\n' >"$work/script"
replay "changes stay pending after a refused build" 0 "" "$folder"

{
  cat "$work/opened"
  echo "refused changes 1 $unresolved"
  echo "refused changes 1 $unresolved"
} >"$work/wanted"
printf 'put /index.js 18\nrequire("./x.js");\nbuild\nbuild\nend\n' >"$work/script"
replay "a build that is refused again is told again" 1 "metro: $unresolved" "$folder"

{
  cat "$work/opened"
  bundle_of '1;' '' index.js | line "revision 2 changes 1 modules 1 added 0 modified 0 deleted 0"
  echo "same 2"
} >"$work/wanted"
printf 'put /index.js 2\n1;\nbuild\nbuild\nend\nno command\n' >"$work/script"
replay "a put of the same bytes gives a revision" 0 "" "$folder"

# A change without effect is counted.
bundle_of '1;' '' index.js | line "revision 2 changes 1 modules 1 added 0 modified 0 deleted 0" >"$work/idle"
cat "$work/opened" "$work/idle" >"$work/wanted"
for change in $'put /index.js 2\n1;' $'put /note.txt 3\nabc' $'put /other.js 1\n(' 'del /gone.js'; do
  printf '%s\nbuild\nend\n' "$change" >"$work/script"
  replay "a change without effect gives a revision: $change" 0 "" "$folder"
done
printf 'put /note.txt 12\nend\nbuild\nno\nbuild\nend\n' >"$work/script"
replay "the bytes of a put are no commands" 0 "" "$folder"

# Nothing is read after the end.
cp "$work/opened" "$work/wanted"
printf 'end\nno command\n' >"$work/script"
replay_open "nothing is read after the end" 0 "" "$folder"

# Changes after the last build.
printf 'put /index.js 1\n"\nend\n' >"$work/script"
replay "changes after the last build give no line" 0 "" "$folder"
unclosed='/index.js:0: syntax: unclosed string'
echo "refused changes 1 $unclosed" >>"$work/wanted"
printf 'put /index.js 1\n"\nbuild\nput /index.js 2\n1;\nend\n' >"$work/script"
replay "changes after a refused build leave its status" 1 "metro: $unclosed" "$folder"

# A first build that is refused.
missing='entry /index.js is not a source file'
files_in "$work/entryless" other.js '1;'
echo "refused changes 0 $missing" >"$work/wanted"
echo end >"$work/script"
replay "a first build may be refused" 1 "metro: $missing" "$work/entryless"
echo "refused changes 0 $missing" >>"$work/wanted"
printf 'build\nend\n' >"$work/script"
replay "a first build may be refused again" 1 "metro: $missing" "$work/entryless"
{
  echo "refused changes 0 $missing"
  bundle_of '1;' '' index.js | line "revision 1 changes 1 modules 1 added 1 modified 0 deleted 0"
} >"$work/wanted"
printf 'put /index.js 2\n1;\nbuild\nend\n' >"$work/script"
replay "a build after a refused one may be revision 1" 0 "" "$work/entryless"

# Builds without a change.
{
  cat "$work/opened"
  printf 'same 1\nsame 1\n'
  bundle_of '2;' '' index.js | line "revision 2 changes 1 modules 1 added 0 modified 1 deleted 0"
  echo "same 2"
} >"$work/wanted"
printf 'build\nbuild\nput /index.js 2\n2;\nbuild\nbuild\nend\n' >"$work/script"
replay "a build without a change is the same" 0 "" "$folder"

# A script that comes byte by byte.
{
  cat "$work/opened"
  bundle_of '2;' '' index.js | line "revision 2 changes 1 modules 1 added 0 modified 1 deleted 0"
  bundle_of '1;' '' index.js | line "revision 3 changes 3 modules 1 added 0 modified 1 deleted 0"
} >"$work/wanted"
printf 'put /index.js 2\n2;\nbuild\nrescan\ndel /gone.js\nbuild\nend\n' >"$work/script"
replay "a script may come at once" 0 "" "$folder"
while IFS= read -r -N 1 byte; do
  printf '%s' "$byte"
  sleep 0.01
done <"$work/script" | (cd "$folder" && exec timeout 60 "$metro" replay index.js) >"$work/out" 2>"$work/log"
judge "a script may come byte by byte" 0 "${PIPESTATUS[1]}" "$work/wanted"

# Numbers are given once and kept.
{
  bundle_of "$required" 1 index.js '1;' '' a.js | line "revision 1 changes 0 modules 2 added 2 modified 0 deleted 0"
  bundle_with "$required" 0 2 index.js '1;' 2 '' b.js | line "revision 2 changes 2 modules 2 added 1 modified 1 deleted 1"
} >"$work/wanted"
files_in "$work/named" index.js 'require("./a.js");' a.js '1;' b.js '1;'
printf 'del /a.js\nput /index.js 18\nrequire("./b.js");\nbuild\nend\n' >"$work/script"
replay "a number is not given to another path" 0 "" "$work/named"

# `/0.js` would have had number 1.
{
  cat "$work/opened"
  echo "refused changes 1 /0.js:0: syntax: unbalanced bracket"
  bundle_of "$required" 1 index.js '1;' '' a.js | line "revision 2 changes 2 modules 2 added 1 modified 1 deleted 0"
} >"$work/wanted"
files_in "$work/unnamed" index.js '1;' 0.js '(' a.js '1;'
printf 'put /index.js 18\nrequire("./%s.js");\nbuild\n' 0 a >"$work/script"
echo end >>"$work/script"
replay "a refused build gives no number" 0 "" "$work/unnamed"

{
  bundle_of "$required" 1 index.js '1;' '' a.js | line "revision 1 changes 0 modules 2 added 2 modified 0 deleted 0"
  bundle_of '1;' '' index.js | line "revision 2 changes 2 modules 1 added 0 modified 1 deleted 1"
  bundle_of "$required" 1 index.js '1;' '' a.js | line "revision 3 changes 4 modules 2 added 1 modified 1 deleted 0"
} >"$work/wanted"
files_in "$work/returning" index.js 'require("./a.js");' a.js '1;'
printf 'put /index.js 2\n1;\ndel /a.js\nbuild\nrescan\nbuild\nend\n' >"$work/script"
replay "a path that comes back has its number" 0 "" "$work/returning"

# Paths of 1,024 bytes and one more.
name="$(head -c 1020 /dev/zero | tr '\0' a)"
printf 'put /%s.js 2\n1;\nbuild\nend\n' "$name" >"$work/script"
{
  cat "$work/opened"
  bundle_of '1;' '' index.js | line "revision 2 changes 1 modules 1 added 0 modified 0 deleted 0"
} >"$work/wanted"
replay "a path of 1024 bytes passes" 0 "" "$folder"
cp "$work/opened" "$work/wanted"
for more in 1 36 976; do
  printf 'put /%s%s.js 2\n1;\nbuild\nend\n' "$name" "$(head -c "$more" /dev/zero | tr '\0' a)" >"$work/script"
  replay "a path of $((1024 + more)) bytes is bad" 7 "metro: script command 1" "$folder"
done

# Lines without their ends, of 1,100 bytes and one more.
printf 'del %s' "$(head -c 1096 /dev/zero | tr '\0' x)" >"$work/script"
replay "a line of 1100 bytes without its end is cut" 7 "metro: script cut in command 1" "$folder"
printf x >>"$work/script"
replay "a line of 1101 bytes is bad" 7 "metro: script command 1" "$folder"

# Puts of the most bytes and one more. The bytes of a put that is too large are not read.
{
  printf 'put /a.js 16777216\n'
  head -c 16777216 /dev/zero | tr '\0' ' '
  printf '\nbuild\nend\n'
} >"$work/script"
cat "$work/opened" "$work/idle" >"$work/wanted"
replay "a put of 16777216 bytes passes" 0 "" "$folder"
cp "$work/opened" "$work/wanted"
for put in 'put /a.js 16777217' 'put /a.js 999999999' 'put /a.txt 16777217'; do
  echo "$put" >"$work/script"
  replay "a put of too many bytes meets the limit at its line: $put" 6 "metro: limit file 16777216" "$folder"
  replay_open "the bytes of a put that is too large are not read: $put" 6 "metro: limit file 16777216" "$folder"
done

# Scripts that are cut, and lines that are no command.
for script in '' en end 'no command' $'put /a.js 5\nabc' $'put /a.js 3\nabc' $'put /a.js 0\n'; do
  printf '%s' "$script" >"$work/script"
  replay "a script that ends in its first command is cut: $script" 7 "metro: script cut in command 1" "$folder"
done
printf 'del /\xff.js\nend\n' >"$work/script"
replay "a line that is not UTF-8 is bad" 7 "metro: script command 1" "$folder"
{
  cat "$work/opened"
  echo "same 1"
} >"$work/wanted"
for script in '' build end $'put /a.js 5\nabc'; do
  printf 'build\n%s' "$script" >"$work/script"
  replay "a script that ends before its end is cut after its lines: $script" 7 "metro: script cut in command 2" "$folder"
done
printf 'build\nput /a.js 3\nabc\n' >"$work/script"
replay "a script that ends after a put is cut in the next command" 7 "metro: script cut in command 3" "$folder"
for bad in '' ' ' Build 'build ' ' build' $'build\r' builds 'rescan ' 'rescan /a.js' END 'end 1' \
  del 'del ' 'del /' 'del a.js' 'del /a//b.js' 'del /a/' 'del /a/../b.js' \
  put 'put /a.js' 'put / 1' $'put a.js 1\n1' 'put /a.js 01' $'put /a.js 01\n1' $'put /a.js 00\n' $'put /a.js +1\n1' \
  $'put /a.js 1 \n1' $'put /a.js 1x\n1' 'put /a.js 1000000000' $'put\t/a.js\t1\n1'; do
  printf 'build\n%s\nend\n' "$bad" >"$work/script"
  replay "a line that is no command is bad: $bad" 7 "metro: script command 2" "$folder"
done
for bad in $'put /a.js 2\n1;' $'put /a.js 1\n11' $'put /a.js 2\n1;build\n' $'put /a.js 0\nbuild\n'; do
  printf 'build\n%send\n' "$bad" >"$work/script"
  replay "bytes without a line feed after them are bad: $bad" 7 "metro: script command 2" "$folder"
done

# A script ends a run with its own status, whatever a build answered.
{
  cat "$work/opened"
  echo "refused changes 1 $missing"
} >"$work/wanted"
printf 'del /index.js\nbuild\nbad\n' >"$work/script"
replay "a bad command after a refused build" 7 "metro: script command 3" "$folder"
printf 'del /index.js\nbuild\nend' >"$work/script"
replay "a script that is cut after a refused build" 7 "metro: script cut in command 3" "$folder"
printf 'del /index.js\nbuild\nput /a.js 16777217\n' >"$work/script"
replay "a limit after a refused build" 6 "metro: limit file 16777216" "$folder"

# A log that fails.
printf 'del /index.js\nbuild\nend\n' >"$work/script"
replay_logless "a refused build" 1 "$folder"
cp "$work/opened" "$work/wanted"
echo end >"$work/script"
replay_logless "an end" 0 "$folder"
echo 'put /a.js 16777217' >"$work/script"
replay_logless "a limit" 6 "$folder"
echo 'no command' >"$work/script"
replay_logless "a bad command" 7 "$folder"
: >"$work/script"
replay_logless "a script that is cut" 7 "$folder"
cp "$work/empty" "$work/wanted"
(cd "$folder" && exec timeout 60 "$metro" replay index.js) >/dev/full 2>/dev/full </dev/null
got=$?
: >"$work/out"
: >"$work/log"
judge "a fault of the log changes no status of a replay: a full output" 4 "$got" "$work/empty"

# The script fails: its standard input is closed, or a folder.
cp "$work/opened" "$work/wanted"
log_is "metro: read failed"
(cd "$folder" && exec timeout 60 "$metro" replay index.js) >"$work/out" 2>"$work/log" <&-
judge "a closed standard input is a fault" 3 "$?" "$work/wanted"
(cd "$folder" && exec timeout 60 "$metro" replay index.js) >"$work/out" 2>"$work/log" <"$folder"
judge "a folder as the standard input is a fault" 3 "$?" "$work/wanted"

# Each command is carried out before more is read: the line of a build comes while the script is still open.
mkfifo "$work/pipe"
{
  cat "$work/opened"
  echo "same 1"
} >"$work/wanted"
log_is ""
(cd "$folder" && exec timeout 60 "$metro" replay index.js) >"$work/out" 2>"$work/log" <"$work/pipe" &
exec 9<>"$work/pipe"
printf 'build\n' >&9
tries=0
until cmp -s "$work/out" "$work/wanted" || [ "$tries" -eq 100 ]; do
  sleep 0.1
  tries=$((tries + 1))
done
cp "$work/out" "$work/early"
printf 'end\n' >&9
exec 9>&-
wait "$!"
got=$?
cp "$work/early" "$work/out"
judge "a line comes before more of the script is read" 0 "$got" "$work/wanted"

# What the folder holds now: a rescan takes what was written there in between, and leads back what was put.
folder="$work/rescanned"
mkdir -p "$folder"
printf 'require("./a.js");' >"$folder/index.js"
printf '1;' >"$folder/a.js"
{
  bundle_of "$required" 1 index.js '1;' '' a.js | line "revision 1 changes 0 modules 2 added 2 modified 0 deleted 0"
  echo "same 1"
  bundle_of "$required" 1 index.js '1;' '' a.js | line "revision 2 changes 3 modules 2 added 0 modified 0 deleted 0"
} >"$work/wanted"
printf 'rescan\nbuild\nput /a.js 1\n"\nrescan\ndel /gone.js\nbuild\nend\n' >"$work/script"
replay "a rescan leads back to the folder" 0 "" "$folder"

# The lone entry again: what a rescan leads back is counted.
bundle_of '1;' '' index.js | line "revision 2 changes 2 modules 1 added 0 modified 0 deleted 0" >"$work/back"
cat "$work/opened" "$work/back" >"$work/wanted"
for change in $'put /index.js 2\n2;' 'del /index.js' $'put /b.js 1\n('; do
  printf '%s\nrescan\nbuild\nend\n' "$change" >"$work/script"
  replay "a rescan leads back: $change" 0 "" "$work/lone"
done
cat "$work/opened" "$work/idle" >"$work/wanted"
printf 'put /index.js 2\n1;\nrescan\nbuild\nend\n' >"$work/script"
replay "a rescan has nothing to say to a change without effect" 0 "" "$work/lone"
{
  cat "$work/opened"
  echo "same 1"
} >"$work/wanted"
printf 'rescan\nbuild\nend\n' >"$work/script"
replay "a rescan of what is the same gives no change" 0 "" "$work/lone"

# A full output.
(cd "$folder" && exec timeout 60 "$metro" replay index.js) >/dev/full 2>"$work/log" <"$work/script"
got=$?
: >"$work/out"
log_is "metro: write failed"
judge "a full output is a fault of a replay" 4 "$got" "$work/empty"

# The example's edits.
log_is ""
(cd "$top/examples/hello" && exec timeout 60 "$metro" replay index.js) \
  >"$work/out" 2>"$work/log" <"$top/examples/hello.script"
judge "the example is replayed" 0 "$?" "$top/checks/hello.lines"

# 65,536 changes, and one more.
folder="$work/lone"
yes 'del /x.js' | head -n 65536 >"$work/most"
{
  cat "$work/opened"
  bundle_of '1;' '' index.js | line "revision 2 changes 65536 modules 1 added 0 modified 0 deleted 0"
  echo "same 2"
} >"$work/wanted"
{
  cat "$work/most"
  printf 'build\nrescan\nbuild\nend\n'
} >"$work/script"
replay "65536 changes pass" 0 "" "$folder"
{
  cat "$work/most"
  printf 'build\nbuild\ndel /x.js\nno command\n'
} >"$work/script"
replay "65537 changes meet the limit" 6 "metro: limit changes 65536" "$folder"
cp "$work/opened" "$work/wanted"
{
  cat "$work/most"
  printf 'del /x.js\nbuild\nend\n'
} >"$work/script"
replay "65537 changes meet the limit before a build" 6 "metro: limit changes 65536" "$folder"
{
  printf 'put /y.js 0\n\n'
  head -n 65535 "$work/most"
  printf 'rescan\nend\n'
} >"$work/script"
replay "a change of a rescan meets the limit" 6 "metro: limit changes 65536" "$folder"

# Changes of 1,073,741,824 bytes of sources, and one byte more.
printf 'put /y.js 16777216\n' >"$work/most"
head -c 16777216 /dev/zero | tr '\0' ' ' >>"$work/most"
echo >>"$work/most"
for _ in {1..64}; do cat "$work/most"; done >"$work/script"
printf 'put /y.txt 1\n1\nbuild\nput /y.js 1\n1\nend\n' >>"$work/script"
{
  cat "$work/opened"
  bundle_of '1;' '' index.js | line "revision 2 changes 65 modules 1 added 0 modified 0 deleted 0"
} >"$work/wanted"
log_is "metro: limit journal-bytes 1073741824"
(cd "$folder" && exec timeout 300 "$metro" replay index.js) >"$work/out" 2>"$work/log" <"$work/script"
judge "changes of 1073741825 bytes meet the limit" 6 "$?" "$work/wanted"
rm "$work/most"

# 1,048,576 commands, and one more.
{
  yes build | head -n 1048575
  echo end
} >"$work/script"
{
  cat "$work/opened"
  yes 'same 1' | head -n 1048575
} >"$work/wanted"
replay "1048576 commands pass" 0 "" "$folder"
{
  yes build | head -n 1048576
  echo end
} >"$work/script"
echo 'same 1' >>"$work/wanted"
replay "1048577 commands meet the limit" 6 "metro: limit commands 1048576" "$folder"

# 2,000 edits in a folder of 20 modules.
folder="$work/twenty"
mkdir -p "$folder"
: >"$folder/index.js"
modules=()
for ((i = 0; i < 20; i++)); do
  name="$(printf 'm%02d.js' "$i")"
  printf 'require("./%s");' "$name" >>"$folder/index.js"
  printf '%d;' "$i" >"$folder/$name"
  if [ "$i" -eq 7 ]; then modules+=('1999;' '' "$name"); else modules+=("$i;" '' "$name"); fi
done
for ((i = 0; i < 2000; i++)); do
  printf 'put /m07.js 5\n%04d;\nbuild\n' "$i"
done >"$work/script"
echo end >>"$work/script"
(cd "$folder" && exec timeout 60 "$metro" replay index.js) >"$work/out" 2>"$work/log" <"$work/script"
got=$?
log_is ""
{
  echo "revision 1 changes 0 modules 21 added 21 modified 0 deleted 0"
  for ((i = 1; i < 2000; i++)); do
    echo "revision $((i + 1)) changes $i modules 21 added 0 modified 1 deleted 0"
  done
  body="$(for ((i = 0; i < 20; i++)); do printf 'require(dependencyMap[%d]);' "$i"; done)"
  bundle_of "$body" "$(seq -s , 20)" index.js "${modules[@]}" |
    line "revision 2001 changes 2000 modules 21 added 0 modified 1 deleted 0"
} >"$work/wanted"
sed -i '$!s/ bytes [0-9]* digest [0-9a-f]*$//' "$work/out"
judge "2000 edits end in a minute" 0 "$got" "$work/wanted"
