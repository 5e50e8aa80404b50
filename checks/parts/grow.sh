# Inputs that are grown. The generator is written again here in Python, from its rules; the bundle's text is that of
# `bundle_of`.

# grown NAME SEED MODULES EDITS: the line of `grow` is that of the generator here.
cat >"$work/grow.py" <<'END'
import hashlib, sys

prelude = open(sys.argv[1]).read().split("__d(")[0]
state, modules, edits = int(sys.argv[2]), int(sys.argv[3]), int(sys.argv[4])


def draw(n):
    global state
    state = (state * 6364136223846793005 + 1442695040888963407) % 2**64
    return state // 2**33 % n


def text(i, chained):
    names = [i + 1] if chained and i + 1 < modules else []
    count = draw(3)
    names += [draw(modules) for _ in range(count)]
    return names, draw(1000000)


files = [text(i, True) for i in range(modules)]
numbers, revisions = {}, 0


def build():
    global revisions, live
    seen, waiting = {0}, [0]
    while waiting:
        for j in files[waiting.pop()][0]:
            if j not in seen:
                seen.add(j)
                waiting.append(j)
    for i in [0] + sorted(seen, key=lambda i: f"/m{i}.js"):
        numbers.setdefault(i, len(numbers))
    revisions, live = revisions + 1, seen


def body(i):
    names, value = files[i]
    distinct = list(dict.fromkeys(names))
    lines = "".join(f"require(dependencyMap[{distinct.index(j)}]);\n" for j in names) + f"exports.v = {value};\n"
    slots = ",".join(str(numbers[j]) for j in distinct)
    head = "__d(function (global, require, importDefault, importAll, module, exports, dependencyMap) {\n"
    return f'{head}{lines}\n}},{numbers[i]},[{slots}],"m{i}.js");\n'


build()
for _ in range(edits):
    i = draw(modules)
    chained = draw(2) == 1
    files[i] = text(i, chained)
    build()
bundle = (prelude + "".join(body(i) for i in sorted(live, key=numbers.get)) + "__r(0);\n").encode()
print(f"grown modules {modules} edits {edits} revisions {revisions} live {len(live)} numbered {len(numbers)} "
      f"bytes {len(bundle)} digest {hashlib.sha256(bundle).hexdigest()}")
END
grown() {
  local name="$1"
  shift
  if ! command -v python3 >/dev/null; then
    skip "$name" "python3 is missing"
    return
  fi
  python3 "$work/grow.py" "$top/checks/hello.bundle.js" "$@" >"$work/wanted"
  for workers in 1 8; do
    check "$name, with $workers workers" 0 "$work/wanted" "" "$work" grow "$@" --workers $workers
  done
}
grown "a module alone is grown" 7 1 0
grown "a folder is grown" 1 200 0
grown "a folder is grown and edited" 18446744073709551615 60 100
check "what is grown reads no folder" 0 "$work/wanted" "" "$work" grow 18446744073709551615 60 100
