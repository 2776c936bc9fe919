#!/usr/bin/env bash
# Each crates/*/must-not-compile/NAME.edit must be refused by the compiler itself, at the line that it changes and with the
# words of its NAME.says. Run from the root of the repository. It works on a copy of the sources and proves nothing there:
# the compiler refuses such a text before any proof, and `rt try` stops where it does. One that compiles is failed.
# The last line is 'N passed, M failed'.
set -u
passed=0
failed=0
copy=$(mktemp -d)
trap 'rm -rf "$copy"' EXIT

# copies the crates afresh, without what checks have left in them
fresh() {
  rm -rf "$copy/repository"
  mkdir "$copy/repository"
  tar -c --exclude=out crates.txt crates | tar -x -C "$copy/repository"
}

# applies the edit $1 to the crate folder $2, and prints the line that it changes, as FILE:LINE:
apply() {
  python3 - "$1" "$2" <<'PY'
import sys
lines = open(sys.argv[1], encoding="utf-8").read().split("\n")
field = lambda key: next(l[len(key) + 2:] for l in lines if l.startswith(key + ": "))
path = sys.argv[2] + "/" + field("file")
text = open(path, encoding="utf-8").read()
if text.count(field("old")) != 1:
    sys.exit("the old text must stand once in " + path)
open(path, "w", encoding="utf-8").write(text.replace(field("old"), field("new")))
print(f"{field('file')}:{text[:text.index(field('old'))].count(chr(10)) + 1}:")
PY
}

for edit in crates/*/must-not-compile/*.edit; do
  crate=$copy/repository/crates/$(echo "$edit" | cut -d/ -f2)
  says=$(cat "${edit%.edit}.says")
  fresh
  if [ -z "$says" ] || ! place=$(apply "$edit" "$crate"); then
    echo "$edit: BAD EDIT"
    failed=$((failed + 1))
  elif (cd "$crate" && rt try --test) >"$copy/said" 2>&1; then
    echo "$edit: COMPILES"
    failed=$((failed + 1))
  elif grep "^$place" "$copy/said" | grep -qF "$says"; then
    echo "$edit: refused, $says"
    passed=$((passed + 1))
  else
    echo "$edit: not refused with the words '$says' at $place"
    head -3 "$copy/said"
    failed=$((failed + 1))
  fi
done
echo "$passed passed, $failed failed"
[ "$failed" -eq 0 ]
