# What the options of the commands do.

# prints NAME FOLDER FILE WORD..: the program, run in FOLDER with these words, prints what FILE has, with status 0.
prints() {
  local name="$1" folder="$2" file="$3"
  shift 3
  check "$name" 0 "$file" "" "$folder" "$@"
}

# Platforms.
folder="$work/platforms"
files_in "$folder" index.js $'import App from "./App";\nimport React from "react";\nimport { View } from "react-native";\nApp(React, View);\n' \
  App.js '1;' App.ios.js '1;' App.native.js '1;' node_modules/react/index.js '1;' node_modules/react-native/index.js '1;' \
  node_modules/react/package.json '{"main":"index.js"}' node_modules/react-native/package.json '{"main":"index.js"}'
for row in ios:App.ios.js android:App.native.js web:App.js; do
  printf '0 0 3 1 3 2 /index.js\n1 0 0 /%s\n2 0 0 /node_modules/react-native/index.js\n3 0 0 /node_modules/react/index.js\n' "${row#*:}" >"$work/wanted"
  prints "a platform file of ${row%%:*} comes first" "$folder" "$work/wanted" deps index.js --platform "${row%%:*}"
done

# The root, several entries, and their order.
folder="$work/entries"
files_in "$folder/app" a.js 'require("./b.js");' b.js '1;' c.js '2;'
bundle_of 'require(dependencyMap[0]);' 2 a.js '2;' '' c.js '1;' '' b.js | sed '$d' >"$work/wanted"
printf '__r(0);\n__r(1);\n' >>"$work/wanted"
prints "entries have the first numbers and start in order" "$folder" "$work/wanted" bundle --root app a.js c.js
bundle_of '2;' '' c.js 'require(dependencyMap[0]);' 2 a.js '1;' '' b.js | sed '$d' >"$work/wanted"
printf '__r(0);\n__r(1);\n' >>"$work/wanted"
prints "their order is that of the words" "$folder" "$work/wanted" bundle c.js a.js --root=app/
prints "a root may be a whole path" / "$work/wanted" bundle c.js a.js --root="$folder/app"
check "an entry that is missing is named" 1 "$work/empty" "metro: entry /d.js is not a source file" "$folder" bundle a.js d.js --root app

# Without comments, and not for development.
folder="$work/production"
files_in "$folder" a.js $'/* a\n */1; // b\n'
bundle_of $'\n1; \n' '' a.js >"$work/wanted"
prints "comments are left out" "$folder" "$work/wanted" bundle a.js --strip
bundle_of $'/* a\n */1; // b\n' '' a.js | sed 's/^var __DEV__=true;/var __DEV__=false;/; s/,"a.js");/);/' >"$work/wanted"
prints "a bundle that is not for development has no paths" "$folder" "$work/wanted" bundle a.js --dev false
bundle_of $'/* a\n */1; // b\n' '' a.js >"$work/wanted"
prints "development is what is made where none is named" "$folder" "$work/wanted" bundle a.js --dev=true

# Workers change nothing.
folder="$work/workers"
files_in "$folder" index.js 'require("./a.js");require("./b.js");require("./c.js");require("./d.js");' a.js '1;' b.js '(' c.js '1;' d.js '1;'
for workers in 1 2 8 64; do
  check "the fault is the same with $workers workers" 1 "$work/empty" "metro: /b.js:0: syntax: unbalanced bracket" "$folder" \
    bundle index.js --workers $workers
done
printf '1;' >"$folder/b.js"
bundle_of 'require(dependencyMap[0]);require(dependencyMap[1]);require(dependencyMap[2]);require(dependencyMap[3]);' 1,2,3,4 index.js \
  '1;' '' a.js '1;' '' b.js '1;' '' c.js '1;' '' d.js >"$work/wanted"
for workers in 1 2 8 64; do
  prints "the bundle is the same with $workers workers" "$folder" "$work/wanted" bundle index.js --workers=$workers
done

# Whole revisions.
folder="$work/full-replay"
files_in "$folder" index.js '1;'
printf 'put /index.js 2\n2;\nbuild\nbuild\nput /index.js 1\n(\nbuild\nend\n' >"$work/script"
{
  bundle_of '1;' '' index.js | line "revision 1 changes 0 modules 1 added 1 modified 0 deleted 0"
  bundle_of '1;' '' index.js
  bundle_of '2;' '' index.js | line "revision 2 changes 1 modules 1 added 0 modified 1 deleted 0"
  bundle_of '2;' '' index.js
  printf 'same 2\nrefused changes 2 /index.js:0: syntax: unbalanced bracket\n'
} >"$work/wanted"
log_is "metro: /index.js:0: syntax: unbalanced bracket"
(cd "$folder" && exec timeout 60 "$metro" replay --full index.js) >"$work/out" 2>"$work/log" <"$work/script"
judge "a bundle follows the line of its revision" 1 "$?" "$work/wanted"
