# Builds that are refused: nothing is written to the output.
folder="$work/refusals"
mkdir -p "$folder"
printf '"abc' >"$folder/a.js"
printf '1;\xff' >"$folder/b.js"
printf 'require("./gone.js");' >"$folder/c.js"
printf 'require("./a.js");\nrequire("./b.js");' >"$folder/d.js"
check "an unclosed string is refused" 1 "$work/empty" 'metro: /a.js:0: syntax: unclosed string' "$folder" bundle a.js
check "a source that is not UTF-8 is refused" 1 "$work/empty" 'metro: /b.js:2: not UTF-8' "$folder" bundle b.js
check "a name that leads nowhere is refused" 1 "$work/empty" 'metro: /c.js:8: cannot resolve "./gone.js"' "$folder" bundle c.js
check "the fault with the least path is named" 1 "$work/empty" 'metro: /a.js:0: syntax: unclosed string' "$folder" bundle d.js
check "a missing entry is refused" 1 "$work/empty" 'metro: entry /gone.js is not a source file' "$folder" bundle gone.js

# refused LINE [NAME BODY]..: a build of a.js over these files is refused with this LINE.
refused() {
  local line="$1" folder
  shift
  folder="$(mktemp -d "$work/refused.XXXXXX")"
  files_in "$folder" "$@"
  check "refused: $line" 1 "$work/empty" "metro: $line" "$folder" bundle a.js
}
refused 'entry /a.js is not a source file' b.js '1;' c.js '1;'
refused '/a.js:7: syntax: import form' a.js 'x = 1; import 7;'
refused '/a.js:0: syntax: import form' a.js 'import "\ud83d";'
refused '/a.js:0: syntax: import form' a.js 'import a from "\u{110000}"; export 7;'
refused '/a.js:0: syntax: export form' a.js 'export a; import 7;'
refused '/a.js:7: syntax: export form' a.js 'import export from "./b.js"' b.js ''
refused '/d.json:0: not JSON' a.js 'require("./d.json");' d.json '{"v":}'
refused '/a.js:0: more than 4096 dependencies' a.js "$(seq -f 'require("./%.0f.js");' 4097)"
refused '/a.js:4: syntax: unclosed regular expression' a.js 'x = /a'
refused '/a.js:4: syntax: unclosed template' a.js 'x = `a'
refused '/a.js:3: syntax: unclosed template' a.js '`${`a'
refused '/a.js:2: syntax: bad character' a.js 'x #'
refused '/a.js:1: syntax: bad character' a.js ' #!a'
refused '/a.js:2: syntax: bad character' a.js 'x \'
refused '/a.js:3: syntax: unclosed string' a.js $'x; "a\rb"'
refused '/a.js:1: syntax: unbalanced bracket' a.js '(]'
refused '/a.js:8: cannot resolve "./c.js"' a.js 'require("./c.js");' b.js '1;'
refused '/a.js:19: syntax: unbalanced bracket' a.js $'require("./b.js");\n)' b.js '"'
refused '/b.js:0: syntax: unclosed string' a.js 'require("./b.js");' b.js "'x"
refused '/a.js:3: syntax: unclosed comment' a.js $'f(\n/*' b.js '1;'

# Of several faults the one with the least path and place is named. What is not reached is not judged.
refused '/b.js:3: syntax: unclosed string' a.js 'require("./c.js");require("./b.js");' b.js $'1;\n\'x' c.js '('
refused '/a.js:8: cannot resolve "./n.js"' a.js 'require("./n.js");require("./b.js");' b.js '(' c.js '('
refused '/b.js:8: cannot resolve "./n.js"' a.js 'require("./b.js");' \
  b.js 'require("./n.js");require("./m.js");require("./c.js");' c.js '('
files_in "$work/unreached" a.js '1;' b.js '(' c.js "'x"
bundle_of '1;' '' a.js >"$work/wanted"
check "what is not reached is not judged" 0 "$work/wanted" "" "$work/unreached" bundle a.js

# The output would fail at its first write.
files_in "$work/bracket" a.js '('
log_is 'metro: /a.js:0: syntax: unbalanced bracket'
(cd "$work/bracket" && exec timeout 60 "$metro" bundle a.js) >/dev/full 2>"$work/log" </dev/null
got=$?
: >"$work/out"
judge "a refused build writes nothing to the output" 1 "$got" "$work/empty"
