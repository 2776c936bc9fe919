#!/usr/bin/env bash
# Counts the places in src/ that docs/DESIGN-PASS.md speaks of, a line for each command: point, count, what is counted.
# With -v it prints the places too. The tables of tests (*_table.rt, tests.rt) do not count.
set -u
cd "$(dirname "$0")/.." || exit 1
mapfile -t files < <(git ls-files 'crates/*/src/*.rt' 'crates/*/src/**/*.rt' | grep -v -e '_table\.rt$' -e '/tests\.rt$' | sort -u)
verbose=${1:-}

# the lines that match a pattern
places() {
  local point=$1 what=$2 pattern=$3 found
  found=$(grep -nE -- "$pattern" "${files[@]}" | grep -vE '^[^:]*:[0-9]+: *//')
  show "$point" "$what" "$found"
}

show() {
  local point=$1 what=$2 found=$3 count=0
  [ -z "$found" ] || count=$(printf '%s\n' "$found" | wc -l)
  printf '%s %4d  %s\n' "$point" "$count" "$what"
  if [ "$verbose" = -v ] && [ -n "$found" ]; then printf '%s\n' "$found" | sed 's/^/          /'; fi
}

# the names that several crates or types give to a function or a type
names() {
  show "$1" "$2" "$(grep -ohE -- "$3" "${files[@]}" | sort | uniq -d)"
}

# the clauses that stand three times or more
repeated() {
  show "$1" "$2" "$(grep -ohE -- "$3" "${files[@]}" | sort | uniq -c | awk '$1 >= 3')"
}

places 1 'answers of the shape of Option or Result in an own enum' '^    (Pending|Unread\(u8|Refused\(|Unread\(script)'
places 1 'a bool beside a &mut that says whether it was written' 'fn .*&mut.*-> bool'
places 1 'a number for none (16)' '\b(16 => |[nN]ame: 16|else 16|None => 16|\[16; 4608\])|^ +16$'
places 1 'a refusal by three numbers' 'number: u8|\(u8, u(size|32), u(size|32)\)'
places 1 'the number of a reason, word by word' 'Reason::[A-Za-z]+ => [0-9]+'
places 1 'a number as the answer of a function that has none' '-> u8$'
places 1 'an answer turned into Option or Result by hand' '^ +(Ok|Some|Err)\(_\) => (Some|None|Ok|Err|true|false)|^ +Err\(_\) =>|^ +None => (Err|Ok|None)'
names 2 'names of functions in several places' '\bfn [a-z_0-9]+'
names 2 'names of types in several places' '^pub (struct|enum) [A-Za-z]+'
places 3 'loops that count an index or go by a condition' '^\s*(while |loop|for [a-z_]+ in [^{]*\.\.)'
places 4 'truths told arm by arm' '=> (true|false),'
places 4 'codes by which values are compared' 'fn [a-z_]*_code\b|fn same_'
places 4 'texts read or written by hand' 'fn (push_(decimal|signed|terms|count)|read_(kind|operation|ratio|integer|natural)|kind|number_text|refused_by|unread|refused|line_word|operator_of|part|is|spells)\b'
places 4 'conversions by hand' 'fn (operator_action|run_word|with_sign|numerator|sign|kept|[a-z]+_reply)\b'
repeated 5 'requires that stand three times or more' 'requires ([a-z_]+ )?\{.*'
places 5 'promises under the premise that the script is sound' 'ensures.*Sound [a-z]+\.now K'
places 5 'promises under the premise that the script is laid out' 'ensures.*Laid [a-z]+\.now →'
places 5 'three parameters or more that go on together' '^    (table|places|items|env|rows|line|field): '
places 6 'arrays of fixed size in types and signatures' '(: |<)\[[A-Za-z0-9<> ]+; [A-Za-z0-9]+\]'
places 7 'functions as values' '\bfn\(|Fn(Once|Mut)?\(|dyn '
places 7 'a match that chooses a step, a kind or a call' 'match \(standing, |match kind \{|match call \{|match operation \{|match calculation \{'
show 8 'answers in proofs/' "$(grep -rhoE '^pub [a-zA-Z0-9_-]+ : goal\.[a-zA-Z0-9_-]+' crates/*/proofs)"
show 8 'lemmas in proofs/' "$(grep -hoE '^ *pub [a-zA-Z0-9_-]+ : ' crates/*/proofs/*.antt)"
