# The graph of a folder: a line for each module.

# deps NAME [NAME BODY].. -- ENTRY: `deps` of ENTRY over these files writes what the file `wanted` has.
deps() {
  local name="$1" files=() folder
  shift
  while [ "$1" != -- ]; do
    files+=("$1")
    shift
  done
  folder="$(mktemp -d "$work/deps.XXXXXX")"
  files_in "$folder" "${files[@]}"
  check "$name" 0 "$work/wanted" "" "$folder" deps "$2"
}

printf '0 0 2 1 0 /a.js\n1 0 2 0 1 /b.js\n' >"$work/wanted"
check "modules that require each other are listed" 0 "$work/wanted" "" "$work/pair" deps a.js
printf '0 0 2 1 0 /b.js\n1 0 2 0 1 /a.js\n' >"$work/wanted"
check "the entry has the number 0" 0 "$work/wanted" "" "$work/pair" deps b.js

printf '0 0 3 2 1 4 /index.js\n1 0 1 3 /lib/even.js\n2 0 1 5 /lib/greet.js\n3 0 1 1 /lib/odd.js\n4 0 1 5 /lib/shapes/circle.js\n5 0 0 /lib/words.js\n' \
  >"$work/wanted"
check "the example is listed" 0 "$work/wanted" "" "$top/examples/hello" deps index.js

echo '0 0 0 /index.js' >"$work/wanted"
deps "a lone entry is listed" index.js '1;' -- index.js
deps "what is not reached is not listed" index.js '' a.js '(' b.js 'require("./gone.js");' -- /index.js
printf '0 0 2 2 1 /m.js\n1 0 0 /a.js\n2 0 0 /z.js\n' >"$work/wanted"
deps "targets come in the order of the names, and modules by number" \
  m.js 'require("./z.js");require("./a.js");require("./z.js");' a.js '' z.js '' -- m.js
printf '0 0 2 1 1 /a.js\n1 0 0 /b.js\n' >"$work/wanted"
deps "two names of one module are two targets" a.js 'require("./b.js");require("./lib/../b.js");' b.js '1;' -- a.js
files_in "$work/deps-names" a.js "require('./b c.js');require('./say \"hi\"/äö.js');" 'b c.js' '1;' 'say "hi"/äö.js' '1;'
printf '0 0 2 1 2 /a.js\n1 0 0 /b c.js\n2 0 0 /say "hi"/äö.js\n' >"$work/wanted"
check "paths are listed as they are" 0 "$work/wanted" "" "$work/deps-names" deps a.js

echo '0 0 0 /a.js' >"$work/wanted"
deps "a call in a regular expression names nothing" a.js $'if (x) /re"quire("y")/.test(s);\nb = a / b / c;\n' -- a.js
echo '0 1 0 /a.js' >"$work/wanted"
deps "a call of something else than a string is dynamic" a.js 'require(x);' -- a.js
printf '0 2 3 1 1 2 /a.mjs\n1 1 0 /b.cjs\n2 0 0 /d.json\n' >"$work/wanted"
deps "a name has a target for each kind" a.mjs 'import "./b.cjs"; import(x); require(y); import("./b.cjs"); export * from "./d.json";' \
  b.cjs 'function f(require) { require(z); } import(a + b);' d.json '{}' -- a.mjs

# Refusals.
check "an entry that is missing has no graph" 1 "$work/empty" "metro: entry /gone.js is not a source file" "$work/pair" deps gone.js
files_in "$work/deps-faulty" a.js 'require("./n.js");require("./b.js");' b.js '('
check "the first fault is told in place of a graph" 1 "$work/empty" 'metro: /a.js:8: cannot resolve "./n.js"' "$work/deps-faulty" deps a.js
check "a source that is refused has no graph" 1 "$work/empty" 'metro: /b.js:0: syntax: unbalanced bracket' "$work/deps-faulty" deps b.js
files_in "$work/deps-template" a.js 't = `a${ `b${ require("./b") }` }c`;'
check "a call in a template names a module" 1 "$work/empty" 'metro: /a.js:22: cannot resolve "./b"' "$work/deps-template" deps a.js
