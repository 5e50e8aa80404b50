# The example, and words that are no command.
check "the example is bundled" 0 "$top/checks/hello.bundle.js" "" "$top/examples/hello" bundle index.js
check "the entry may begin with a slash" 0 "$top/checks/hello.bundle.js" "" "$top/examples/hello" bundle /index.js

folder="$work/words"
mkdir -p "$folder"
printf '1;' >"$folder/a.js"
check "no words are refused" 2 "$work/empty" "metro: word 1" "$folder"
check "an unknown command is refused" 2 "$work/empty" "metro: word 1" "$folder" bundel a.js
check "words that are not UTF-8 are answered as none" 2 "$work/empty" "metro: word 1" "$folder" bundle $'\xff.js'
check "a command without an entry is refused" 2 "$work/empty" "metro: word 2" "$folder" bundle
check "an entry with a folder above it is refused" 2 "$work/empty" "metro: word 2" "$folder" bundle ../a.js
check "a command that is not there is refused" 2 "$work/empty" "metro: word 1" "$folder" serve a.js
check "an entry that begins with a dash is refused" 2 "$work/empty" "metro: word 2" "$folder" bundle -a.js
check "an entry with a point before it is refused" 2 "$work/empty" "metro: word 2" "$folder" bundle ./a.js
check "an empty word is refused" 2 "$work/empty" "metro: word 3" "$folder" bundle a.js ""
check "the first bad word is named" 2 "$work/empty" "metro: word 2" "$folder" bundle / b.js
check "no entry comes twice" 2 "$work/empty" "metro: word 3" "$folder" bundle a.js /a.js
check "the program has no --help" 2 "$work/empty" "metro: word 2" "$folder" bundle --help
check "a flag has no value" 2 "$work/empty" "metro: word 3" "$folder" bundle a.js --strip=true
check "no option comes twice" 2 "$work/empty" "metro: word 4" "$folder" bundle a.js --workers=9 --workers 3
check "there is a worker at least" 2 "$work/empty" "metro: word 4" "$folder" bundle a.js --workers 0
check "there are 64 workers at most" 2 "$work/empty" "metro: word 3" "$folder" bundle a.js --workers=65
check "a number has no zero before it" 2 "$work/empty" "metro: word 3" "$folder" bundle a.js --workers=04
check "a value that is missing at the end is named" 2 "$work/empty" "metro: word 4" "$folder" bundle a.js --root
check "a value does not begin with a dash" 2 "$work/empty" "metro: word 4" "$folder" bundle a.js --root --strip
check "a value is not empty" 2 "$work/empty" "metro: word 3" "$folder" bundle a.js --cache=
check "development is true or false" 2 "$work/empty" "metro: word 3" "$folder" bundle --dev yes a.js
check "a platform is in lower case" 2 "$work/empty" "metro: word 3" "$folder" bundle a.js --platform=iOS
check "whole revisions are of replay alone" 2 "$work/empty" "metro: word 3" "$folder" bundle a.js --full
check "words are refused before the folder is read" 2 "$work/empty" "metro: word 6" "$folder" bundle a.js --root gone --dev
for command in bundle deps check replay; do
  check "$command without an entry is refused" 2 "$work/empty" "metro: word 2" "$folder" $command
  check "a bad option of $command is refused" 2 "$work/empty" "metro: word 2" "$folder" $command --full=1
  check "the root is no entry of $command" 2 "$work/empty" "metro: word 2" "$folder" $command /
  check "$command has 16 entries at most" 2 "$work/empty" "metro: word 18" "$folder" $command $(seq -f '%g.js' 17)
  check "a word that begins as $command is no command" 2 "$work/empty" "metro: word 1" "$folder" ${command}s a.js
  check "a word with which $command begins is no command" 2 "$work/empty" "metro: word 1" "$folder" ${command%?} a.js
  check "a root that is not there cannot be read by $command" 3 "$work/empty" "metro: read failed" "$folder" $command a.js --root gone
done
check "grow has three numbers" 2 "$work/empty" "metro: word 4" "$folder" grow 1 2
check "grow has no fourth number" 2 "$work/empty" "metro: word 5" "$folder" grow 1 2 3 4
check "grow makes a module at least" 2 "$work/empty" "metro: word 3" "$folder" grow 1 0 0
check "grow makes 50000 modules at most" 2 "$work/empty" "metro: word 3" "$folder" grow 1 50001 0
check "grow makes 10000 edits at most" 2 "$work/empty" "metro: word 4" "$folder" grow 1 1 10001
check "a seed is below 2^64" 2 "$work/empty" "metro: word 2" "$folder" grow 18446744073709551616 1 0
check "grow has no folder" 2 "$work/empty" "metro: word 5" "$folder" grow 1 1 0 --root=.
