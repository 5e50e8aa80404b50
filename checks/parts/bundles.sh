# Bundles, written whole.
required='require(dependencyMap[0]);require(dependencyMap[1]);'
files_in "$work/pair" a.js 'require("./b.js");require("./a.js");' b.js 'require("./a.js");require("./b.js");'
bundle_of "$required" 1,0 a.js "$required" 0,1 b.js >"$work/wanted"
check "modules that require each other are bundled" 0 "$work/wanted" "" "$work/pair" bundle a.js

# Divisions, regular expressions, templates and names of every script are read, and stay as they are.
read='x = 1 / 2; y = /[/"]/g; z = `a${ {b: "c"}.b }`; é = #p;'
files_in "$work/tokens" a.js "$read"
bundle_of "$read" '' a.js >"$work/wanted"
check "regular expressions and templates are bundled" 0 "$work/wanted" "" "$work/tokens" bundle a.js

# A million open brackets and as many closed ones are read without recursion.
open="$(head -c 1000000 /dev/zero | tr '\0' '(')"
closed="$(head -c 1000000 /dev/zero | tr '\0' ')')"
files_in "$work/million" a.js "$open$closed"
bundle_of "$open$closed" '' a.js >"$work/wanted"
check "a million brackets are bundled" 0 "$work/wanted" "" "$work/million" bundle a.js
files_in "$work/million" a.js "$open"
check "the innermost of a million open brackets is named" 1 "$work/empty" "metro: /a.js:999999: syntax: unbalanced bracket" \
  "$work/million" bundle a.js

# JSON is exported as it is, nested up to 127 deep.
files_in "$work/json" a.js 'module.exports = require("./d.json");' d.json '{"v":1}'
bundle_of 'module.exports = require(dependencyMap[0]);' 1 a.js 'module.exports = {"v":1};' '' d.json >"$work/wanted"
check "JSON is bundled" 0 "$work/wanted" "" "$work/json" bundle a.js
nested() { head -c "$1" /dev/zero | tr '\0' "$2"; }
files_in "$work/nested" a.json "$(nested 127 '[')$(nested 127 ']')" b.json "$(nested 128 '[')$(nested 128 ']')"
bundle_of "module.exports = $(nested 127 '[')$(nested 127 ']');" '' a.json >"$work/wanted"
check "JSON nested 127 deep is bundled" 0 "$work/wanted" "" "$work/nested" bundle a.json
check "JSON nested 128 deep is refused" 1 "$work/empty" 'metro: /b.json:0: not JSON' "$work/nested" bundle b.json

# Imports and exports are written as CommonJS.
exporting='Object.defineProperty(exports, "__esModule", { value: true });'
files_in "$work/imports" App.js $'#!/usr/bin/env node\nimport App, { a as b } from "./b.js";\nexport default function Main() {}\n' b.js $'export * from "./App.js"; export var a = 1, /* one */ b = f(1,2)'
bundle_of "$exporting"$'\n\nvar App = importDefault(dependencyMap[0]); var b = require(dependencyMap[0]).a;\n function Main() {}\n\nexports.default = Main;' 1 App.js \
  "$exporting"$'\n__exportAll(exports, require(dependencyMap[0]));  var a = 1, /* one */ b = f(1,2)\nexports.a = a;\nexports.b = b;' 0 b.js >"$work/wanted"
check "imports and exports are bundled" 0 "$work/wanted" "" "$work/imports" bundle App.js
files_in "$work/calls" a.js $'require(x); import(y); import("./b.js",); function f(require) { require("./gone.js"); }' b.js ''
bundle_of 'require(x); import(y); Promise.resolve(dependencyMap[0]).then(importAll); function f(require) { require("./gone.js"); }' 1 a.js '' '' b.js >"$work/wanted"
check "calls of import are bundled, and calls in a shielding function stay" 0 "$work/wanted" "" "$work/calls" bundle a.js
