# A folder with imports and exports of every form, CommonJS and JSON: node prints the same of its bundle and of its files.
name="the bundle of the modules example prints in node what its files print"
if command -v node >/dev/null; then
  (cd "$top/examples/modules" && exec timeout 60 node main.mjs) >"$work/out" 2>"$work/log" </dev/null
  status=$?
  log_is ""
  judge "the modules of the example print in node what is wanted" 0 "$status" "$top/checks/modules.out"
  (cd "$top/examples/modules" && exec timeout 60 "$metro" bundle main.mjs) >"$work/bundle.js" 2>"$work/log" </dev/null
  timeout 60 node "$work/bundle.js" >"$work/out" 2>>"$work/log" </dev/null
  judge "$name" 0 "$?" "$top/checks/modules.out"
else
  skip "$name" "no node"
fi
