# The limit of a source, at the last number that is good and the first that is not.
folder="$work/limits"
mkdir -p "$folder"
blanks() { head -c "$1" /dev/zero | tr '\0' ' '; }
blanks 16777216 >"$folder/index.js"
bundle_of '@' '' index.js >"$work/frame"
{
  sed '/^@$/,$d' "$work/frame"
  cat "$folder/index.js"
  echo
  sed '1,/^@$/d' "$work/frame"
} >"$work/wanted"
check "a source of 16777216 bytes is bundled" 0 "$work/wanted" "" "$folder" bundle index.js
echo '0 0 0 /index.js' >"$work/wanted"
check "a source of 16777216 bytes is listed" 0 "$work/wanted" "" "$folder" deps index.js
printf ' ' >>"$folder/index.js"
for command in bundle deps check; do
  check "a source of 16777217 bytes meets the limit of $command" 6 "$work/empty" "metro: limit file 16777216" \
    "$folder" $command index.js
done
(cd "$folder" && exec timeout 60 "$metro" bundle index.js) >"$work/out" 2>/dev/full </dev/null
got=$?
: >"$work/log"
log_is ""
judge "a fault of the log leaves the status of a limit" 6 "$got" "$work/empty"

# A limit comes before the build. A file that is no source is not read.
files_in "$work/walk" a.js ' '
cp "$folder/index.js" "$work/walk/b.js"
check "a source that is not reached meets the limit" 6 "$work/empty" "metro: limit file 16777216" "$work/walk" bundle gone.js
files_in "$work/unread" b.js ' '
cp "$folder/index.js" "$work/unread/a.txt"
check "a file that is no source meets no limit" 1 "$work/empty" "metro: entry /gone.js is not a source file" \
  "$work/unread" bundle gone.js
rm -r "$folder" "$work/walk" "$work/unread"

# A file of 20 GB costs no more memory than the limit: the program gets 512 MB of address space.
folder="$work/huge"
mkdir -p "$folder"
printf '1;' >"$folder/index.js"
if truncate -s 20G "$folder/huge.js" 2>/dev/null; then
  log_is "metro: limit file 16777216"
  (cd "$folder" && ulimit -v 524288 && exec timeout 60 "$metro" bundle index.js) >"$work/out" 2>"$work/log" </dev/null
  judge "a file of 20 GB is refused in little memory" 6 "$?" "$work/empty"
else
  skip "a file of 20 GB is refused in little memory" "this file system has no such file"
fi

# Sources of 1,073,741,824 bytes, and one more: 64 files with holes.
folder="$work/sum"
files_in "$folder" index.js '1;'
bundle_of '1;' '' index.js >"$work/wanted"
if truncate -s 16777216 "$folder"/{01..63}.js && truncate -s 16777214 "$folder/64.js"; then
  check "a folder of 1073741824 bytes passes" 0 "$work/wanted" "" "$folder" bundle index.js
  truncate -s 16777215 "$folder/64.js"
  check "a folder of 1073741825 bytes meets the limit" 6 "$work/empty" "metro: limit folder-bytes 1073741824" \
    "$folder" bundle index.js
else
  skip "a folder of 1073741824 bytes passes" "this file system has no such files"
fi
rm -r "$folder"

# 262,144 files, and one more.
folder="$work/many"
files_in "$folder" index.js '1;'
(cd "$folder" && seq -f '%.0f.txt' 262143 | xargs touch)
check "262144 files pass" 0 "$work/wanted" "" "$folder" bundle index.js
touch "$folder/0.txt"
check "262145 files meet the limit" 6 "$work/empty" "metro: limit files 262144" "$folder" bundle index.js
rm -r "$folder"

# 65,536 modules, each of which requires the next, and one more. Too many modules are the one fault, whatever else is wrong.
folder="$work/chain"
mkdir -p "$folder"
awk -v folder="$folder" 'BEGIN { for (i = 0; i < 65536; i++) { file = folder "/m" i ".js"; printf "require(\"./m%d.js\");", i + 1 > file; close(file) } }'
printf '1;' >"$folder/m65535.js"
echo 'ok 65536 0' >"$work/wanted"
check "65536 modules pass" 0 "$work/wanted" "" "$folder" check m0.js
printf '(' >"$folder/m65535.js"
echo '/m65535.js:0: syntax: unbalanced bracket' >"$work/wanted"
check "a fault of 65536 modules is listed" 1 "$work/wanted" "" "$folder" check m0.js
printf 'require("./m65536.js");require("./gone.js");' >"$folder/m65535.js"
printf '1;' >"$folder/m65536.js"
echo 'more than 65536 modules' >"$work/wanted"
check "65537 modules are one fault" 1 "$work/wanted" "" "$folder" check m0.js
check "65537 modules have no graph" 1 "$work/empty" "metro: more than 65536 modules" "$folder" deps m0.js
rm -r "$folder"
