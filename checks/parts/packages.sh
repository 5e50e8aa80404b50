# Where names lead: platform files, folders, and packages under `node_modules`. The platform is `ios`.

# refused NAME LINE [NAME BODY].. -- ENTRY: `deps` of ENTRY over these files is refused with LINE on the log.
refused() {
  local name="$1" line="$2" files=() folder
  shift 2
  while [ "$1" != -- ]; do
    files+=("$1")
    shift
  done
  folder="$(mktemp -d "$work/packages.XXXXXX")"
  files_in "$folder" "${files[@]}"
  check "$name" 1 "$work/empty" "$line" "$folder" deps "$2"
}

printf '0 0 3 1 3 2 /index.js\n1 0 0 /App.ios.js\n2 0 0 /node_modules/react-native/index.js\n3 0 0 /node_modules/react/index.js\n' >"$work/wanted"
deps "a platform file comes first, and packages have a main file" \
  index.js $'import App from "./App";\nimport React from "react";\nimport { View } from "react-native";\nApp(React, View);\n' \
  App.js '1;' App.ios.js '1;' App.native.js '1;' node_modules/react/index.js '1;' node_modules/react-native/index.js '1;' \
  node_modules/react/package.json '{"main":"index.js"}' node_modules/react-native/package.json '{"main":"index.js"}' -- index.js

printf '0 0 2 2 1 /index.js\n1 0 0 /node_modules/@s/t/index.js\n2 0 1 3 /node_modules/pkg/lib/main.js\n3 0 0 /node_modules/pkg/node_modules/dep/index.js\n' \
  >"$work/wanted"
deps "a main may leave out its extension, and be gone; the inner package comes first" index.js 'require("pkg");require("@s/t");' \
  node_modules/pkg/package.json '{"main":"lib/main"}' node_modules/pkg/lib/main.js 'require("dep");' \
  node_modules/pkg/node_modules/dep/index.js '1;' node_modules/dep/index.js '1;' node_modules/@s/t/index.js '1;' \
  node_modules/@s/t/package.json '{"main":"gone.js"}' -- index.js

printf '0 0 1 1 /a/b/c.js\n1 0 0 /node_modules/p/index.js\n' >"$work/wanted"
deps "a package is looked for in each folder above" a/b/c.js 'require("p");' node_modules/p/index.js '1;' -- a/b/c.js
deps "a main that leaves the root leads nowhere, and index does" a/b/c.js 'require("p");' node_modules/p/index.js '1;' \
  node_modules/p/package.json '{"main":"../../../x.js"}' x.js '1;' -- a/b/c.js
deps "a main of the folder itself is its index" a/b/c.js 'require("p");' node_modules/p/index.js '1;' \
  node_modules/p/package.json '{"main":"."}' -- a/b/c.js
printf '0 0 1 1 /a.js\n1 0 0 /node_modules/p/b.js\n' >"$work/wanted"
deps "the first field that says something is the main" a.js 'require("p");' node_modules/p/a.js '1;' node_modules/p/b.js '1;' \
  node_modules/p/package.json '{"main":"a.js","browser":"b.js","react-native":""}' -- a.js
printf '0 0 3 1 2 3 /d/a.js\n1 0 0 /d/index.js\n2 0 0 /index.js\n3 0 0 /x.js\n' >"$work/wanted"
deps "names of folders, and names from the root" d/a.js 'require(".");require("..");require("/x");' d/index.js '1;' index.js '1;' x.js '1;' -- d/a.js
printf '0 0 2 2 1 /a.js\n1 0 0 /d.js\n2 0 0 /d/index.js\n' >"$work/wanted"
deps "a name that ends in / is a folder" a.js 'require("./d/");require("./d");' d.js '1;' d/index.js '1;' -- a.js
printf '0 0 1 1 /node_modules/p/a.js\n1 0 0 /node_modules/q/index.js\n' >"$work/wanted"
deps "a module in a package finds the package beside it" node_modules/p/a.js 'require("q");' node_modules/q/index.js '1;' \
  node_modules/node_modules/q/index.js '2;' -- node_modules/p/a.js
printf '0 0 1 1 /a.js\n1 0 0 /p.js\n' >"$work/wanted"
deps "a package file after a hit is not read" a.js 'require("./p");' p.js '1;' p/package.json '{' -- a.js

refused "a package file that is not JSON is told" 'metro: /a.js:8: bad package file /p/package.json' a.js 'require("./p");' \
  p/package.json '{' p/index.js '1;' -- a.js
refused "a package file that is no object is told" 'metro: /a.js:8: bad package file /node_modules/p/package.json' \
  a.js 'require("p");' node_modules/p/package.json '[]' node_modules/p/index.js '1;' -- a.js
refused "a scope alone is no package" 'metro: /a.js:8: cannot resolve "@s"' a.js 'require("@s");' node_modules/@s/t/index.js '1;' -- a.js
refused "an empty name leads nowhere" 'metro: /a.js:8: cannot resolve ""' a.js 'require("");' index.js '1;' -- a.js

# A package file is a source: a change of it leads a name elsewhere.
folder="$work/package-edits"
files_in "$folder" index.js 'require("p");' node_modules/p/a.js '1;' node_modules/p/b.js '2;' node_modules/p/package.json '{"main":"a.js"}'
printf 'put /node_modules/p/package.json 15\n{"main":"b.js"}\nbuild\nput /node_modules/p/package.json 1\n{\nbuild\nend\n' >"$work/script"
(cd "$folder" && exec timeout 60 "$metro" replay index.js) <"$work/script" >"$work/got" 2>"$work/log"
status=$?
sed 's/ bytes .*//' "$work/got" >"$work/out"
printf 'revision 1 changes 0 modules 2 added 2 modified 0 deleted 0\nrevision 2 changes 1 modules 2 added 1 modified 1 deleted 1\nrefused changes 2 /index.js:8: bad package file /node_modules/p/package.json\n' >"$work/wanted"
log_is 'metro: /index.js:8: bad package file /node_modules/p/package.json'
judge "a change of a package file leads a name elsewhere" 1 "$status" "$work/wanted"
folder="$work/platform-edits"
files_in "$folder" index.js 'require("./App");' App.js '1;'
printf 'put /App.ios.js 2\n2;\nbuild\nend\n' >"$work/script"
(cd "$folder" && exec timeout 60 "$metro" replay index.js) <"$work/script" >"$work/got" 2>"$work/log"
status=$?
sed 's/ bytes .*//' "$work/got" >"$work/out"
printf 'revision 1 changes 0 modules 2 added 2 modified 0 deleted 0\nrevision 2 changes 1 modules 2 added 1 modified 1 deleted 1\n' >"$work/wanted"
log_is ''
judge "a platform file that comes takes the name" 0 "$status" "$work/wanted"
