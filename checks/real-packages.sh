#!/usr/bin/env bash
# Bundles small entries that require packages as Debian ships them, from a `node_modules` folder into which these are copied with
# links followed, and shows that each bundle prints in node what the entry prints there. By hand; wants apt-get, dpkg, node and
# the network.
set -eu
top="$(cd "$(dirname "$0")/.." && pwd)"
program="${METRO_PROGRAM:-$top/crates/metro_program/out/metro_program}"
[ -x "$program" ] || { echo "no program at $program: run rt ci first" >&2; exit 1; }
if ! command -v node >/dev/null; then
  echo "skipped: no node"
  exit 0
fi
work="$(mktemp -d)"
trap 'rm -rf "$work"' EXIT

mkdir "$work/debs"
cd "$work/debs"
for package in node-react node-lodash node-immutable node-uuid node-moment libjs-moment libjs-three node-d3-array node-preact; do
  apt-get download -qq "$package" 2>/dev/null || echo "skipped: no package $package"
done
for package in *.deb; do
  dpkg -x "$package" "$work/root"
done
same=0
other=0

# runs NAME TEXT [PACKAGE..]: an entry of this text, beside these packages.
runs() {
  local name="$1" folder="$work/run/$1" package
  mkdir -p "$folder/node_modules"
  printf '%s\n' "$2" >"$folder/index.js"
  shift 2
  for package in "$@"; do
    # Links of Debian's packages lead from the root of the system.
    (cd "$work/root/usr/share/nodejs" && tar -c "$package") | tar -x -C "$folder/node_modules"
    find "$folder/node_modules" -type l | while IFS= read -r link; do
      local target
      target="$(readlink "$link")"
      rm "$link"
      case "$target" in
        /*) target="$work/root$target" ;;
        *) target="$(dirname "$work/root/usr/share/nodejs/${link#"$folder/node_modules/"}")/$target" ;;
      esac
      cp -rL "$target" "$link" 2>/dev/null || true
    done
  done
  (cd "$folder" && timeout 60 node index.js) >"$work/wanted" 2>/dev/null || true
  if ! (cd "$folder" && timeout 60 "$program" bundle index.js) >"$work/bundle.js" 2>"$work/log"; then
    other=$((other + 1))
    echo "$name: $(cat "$work/log")"
    return
  fi
  timeout 60 node "$work/bundle.js" >"$work/out" 2>"$work/log" || true
  if [ -s "$work/wanted" ] && cmp -s "$work/out" "$work/wanted"; then
    same=$((same + 1))
    echo "$name: $(wc -c <"$work/bundle.js") bytes, prints $(head -1 "$work/out" | cut -c 1-60)"
  else
    other=$((other + 1))
    echo "$name: prints something else"
    head -c 300 "$work/log"
  fi
}

runs react 'const React = require("react"); console.log(React.version, React.createElement("a", { b: 1 }).props.b);' react
runs lodash 'console.log(JSON.stringify(require("lodash").chunk([1, 2, 3], 2)));' lodash
runs lodash-part 'console.log(require("lodash/fp/add")(1)(2));' lodash
runs immutable 'const { Map } = require("immutable"); console.log(Map({ a: 1 }).set("b", 2).toString());' immutable
runs uuid 'console.log(require("uuid").validate("6ec0bd7f-11c0-43da-975e-2a8ad9ebae0b"));' uuid
runs moment 'console.log(require("moment").utc(0).format());' moment
runs three 'const { Vector3 } = require("three"); console.log(new Vector3(1, 2, 2).length());' three
runs d3-array 'console.log(require("d3-array").max([1, 3, 2]));' d3-array internmap
runs preact 'const { h } = require("preact"); console.log(h("a", { b: 1 }, "c").children.length);' preact
echo "$same print the same, $other do not"
