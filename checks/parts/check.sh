# Checks of a folder: a line for each fault on the output, and none on the log.

# checked NAME STATUS OUT [NAME BODY].. -- ENTRY: `check` of ENTRY over these files ends with STATUS, and writes OUT.
checked() {
  local name="$1" status="$2" files=() folder
  printf '%s\n' "$3" >"$work/wanted"
  shift 3
  while [ "$1" != -- ]; do
    files+=("$1")
    shift
  done
  folder="$(mktemp -d "$work/checked.XXXXXX")"
  files_in "$folder" "${files[@]}"
  check "$name" "$status" "$work/wanted" "" "$folder" check "$2"
}

two_names='require("./b.js");require("./a.js");'
checked "all faults are listed by path and place" 1 \
  $'/a.js:0: syntax: unclosed string\n/b.js:8: cannot resolve "./n.js"\n/b.js:26: cannot resolve "./m.js"' \
  index.js "$two_names" a.js '"' b.js 'require("./n.js");require("./m.js");' -- index.js
checked "files without a fault are counted" 0 'ok 3 0' index.js "$two_names" a.js '1;' b.js '1;' -- index.js
checked "modules that require each other are counted once" 0 'ok 2 0' a.js "$two_names" b.js "$two_names" -- a.js
checked "a lone entry is counted" 0 'ok 1 0' index.js '' -- /index.js
checked "a missing entry is a fault" 1 'entry /gone.js is not a source file' index.js '(' -- gone.js
checked "what is not reached is not checked" 0 'ok 1 0' index.js '1;' a.js '(' b.js 'require("./gone.js");' -- index.js
checked "a module that leads nowhere leads on elsewhere" 1 \
  $'/a.js:8: cannot resolve "./n.js"\n/b.js:0: syntax: unbalanced bracket' \
  a.js 'require("./n.js");require("./b.js");' b.js ')' -- a.js
checked "what only a refused source requires is not reached" 1 '/a.js:18: syntax: unbalanced bracket' \
  a.js 'require("./b.js");(' b.js '"' -- a.js
checked "a name is a fault once, at its first place" 1 $'/a.js:8: cannot resolve "./x.js"\n/a.js:26: cannot resolve "./y.js"' \
  a.js 'require("./x.js");require("./y.js");require("./x.js");' -- a.js
checked "a folder comes after the file before it" 1 \
  $'/a.js:0: syntax: unclosed string\n/a/b.js:0: syntax: unclosed string\n/ab.js:0: syntax: unclosed string' \
  index.js 'require("./ab.js");require("./a/b.js");require("./a.js");' a.js '"' ab.js '"' a/b.js '"' -- index.js
checked "a name is quoted" 1 '/a.js:8: cannot resolve "say \"hi\".js"' a.js "require('say \"hi\".js');" -- a.js
checked "a source that is not UTF-8 is a fault" 1 '/a.js:2: not UTF-8' a.js $'1;\xff' -- a.js

checked "each fault of a source has its line" 1 \
  $'/a.js:0: syntax: import form\n/b.js:1: syntax: export form\n/c.js:4: syntax: unclosed regular expression\n/d.js:3: syntax: unclosed template\n/e.js:1: syntax: unclosed comment\n/f.json:0: not JSON\n/g.js:2: syntax: bad character\n/h.js:3: syntax: unclosed string\n/i.js:1: syntax: unbalanced bracket' \
  index.js "$(printf 'import "./%s";' a.js b.js c.js d.js e.js f.json g.js h.js i.js)" a.js 'import 7;' b.js ';export 7' c.js 'x = /a' \
  d.js '`${`a' e.js 'a/*' f.json '{' g.js 'x \' h.js $'x; "a\rb"' i.js '(]' -- index.js
checked "dynamic calls are counted" 0 'ok 2 3' a.js 'require("./b.js");require(x);import(y);' b.js 'require(z);' -- a.js

# As many faults as a module has names, and one name more.
folder="$work/check-names"
mkdir -p "$folder"
seq -f 'require("./m%.0f.js");' 10000 14095 >"$folder/index.js"
awk '{ printf "/index.js:%d: cannot resolve \"./m%d.js\"\n", 24 * (NR - 1) + 8, 9999 + NR }' "$folder/index.js" >"$work/wanted"
check "4096 names that lead nowhere are 4096 faults" 1 "$work/wanted" "" "$folder" check index.js
echo 'require("./m9.js");' >>"$folder/index.js"
echo '/index.js:0: more than 4096 dependencies' >"$work/wanted"
check "4097 names are one fault" 1 "$work/wanted" "" "$folder" check index.js

# The output would fail at its first write.
files_in "$work/check-full" a.js '1;' b.js '('
for entry in a b; do
  log_is "metro: write failed"
  (cd "$work/check-full" && exec timeout 60 "$metro" check $entry.js) >/dev/full 2>"$work/log" </dev/null
  got=$?
  : >"$work/out"
  judge "a check whose output is full ends with a fault of it: $entry" 4 "$got" "$work/empty"
done
echo '/b.js:0: syntax: unbalanced bracket' >"$work/wanted"
(cd "$work/check-full" && exec timeout 60 "$metro" check b.js) >"$work/out" 2>/dev/full </dev/null
got=$?
: >"$work/log"
log_is ""
judge "a full log changes nothing of a check" 1 "$got" "$work/wanted"
