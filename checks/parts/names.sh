# Which names of a folder are read, and which are passed over.
folder="$work/names"
mkdir -p "$folder/äö"
printf '%s' 'require("./a b.js");require("./it'"'"'s.js");require('"'"'./say "hi".js'"'"');require("./äö/日本.js");' >"$folder/index.js"
printf '1;' >"$folder/a b.js"
printf '2;' >"$folder/it's.js"
printf '3;' >"$folder/say \"hi\".js"
printf '4;' >"$folder/äö/日本.js"
bundle_of 'require(dependencyMap[0]);require(dependencyMap[1]);require(dependencyMap[2]);require(dependencyMap[3]);' 1,2,3,4 index.js \
  '1;' '' 'a b.js' '2;' '' "it's.js" '3;' '' 'say \"hi\".js' '4;' '' 'äö/日本.js' >"$work/wanted"
check "names with blanks, quotes and letters beyond ASCII are read" 0 "$work/wanted" "" "$folder" bundle index.js

# A folder whose name begins with `.` is not entered; a file whose name does is read.
folder="$work/hidden"
mkdir -p "$folder/.hidden"
printf 'require("./.dot.js");' >"$folder/a.js"
printf 'require("./.hidden/x.js");' >"$folder/b.js"
printf '1;' >"$folder/.dot.js"
printf '1;' >"$folder/.hidden/x.js"
bundle_of 'require(dependencyMap[0]);' 1 a.js '1;' '' .dot.js >"$work/wanted"
check "a hidden file is read" 0 "$work/wanted" "" "$folder" bundle a.js
check "a hidden folder is not entered" 1 "$work/empty" 'metro: /b.js:8: cannot resolve "./.hidden/x.js"' "$folder" bundle b.js

# Names that are no UTF-8, or have a control character, are no segments of a path.
folder="$work/odd"
mkdir -p "$folder"
printf '1;' >"$folder/index.js"
printf 'require("./c\001.js");' >"$folder/b.js"
bundle_of '1;' '' index.js >"$work/wanted"
if printf '1;' 2>/dev/null >"$folder/"$'c\001.js' && printf '1;' 2>/dev/null >"$folder/"$'\xff.js' && mkdir "$folder/"$'\xfe'; then
  check "names that are no segments are passed over" 0 "$work/wanted" "" "$folder" bundle index.js
  check "a name with a control character leads nowhere" 1 "$work/empty" 'metro: /b.js:8: cannot resolve "./c\x01.js"' "$folder" bundle b.js
else
  skip "names that are no segments are passed over" "this file system has no such names"
fi

# A named pipe and links are passed over and never opened: a pipe with no writer would hang.
folder="$work/special"
mkdir -p "$folder/inner"
printf '1;' >"$folder/index.js"
printf 'require("./pipe.js");' >"$folder/p.js"
printf 'require("./link.js");' >"$folder/l.js"
printf 'require("./around/index.js");' >"$folder/f.js"
mkfifo "$folder/pipe.js"
ln -s index.js "$folder/link.js"
ln -s gone.js "$folder/dangling.js"
ln -s . "$folder/around"
check "pipes and links are passed over" 0 "$work/wanted" "" "$folder" bundle index.js
check "a named pipe is no source" 1 "$work/empty" 'metro: /p.js:8: cannot resolve "./pipe.js"' "$folder" bundle p.js
check "a link is no source" 1 "$work/empty" 'metro: /l.js:8: cannot resolve "./link.js"' "$folder" bundle l.js
check "a link to a folder is not entered" 1 "$work/empty" 'metro: /f.js:8: cannot resolve "./around/index.js"' "$folder" bundle f.js
