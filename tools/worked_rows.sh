#!/usr/bin/env bash
# worked_rows.sh: tries the definitions on worked examples, by computation, in a minute.
#
# std's finite maps don't compute outside their own file. So this builds a crate `worked` of the definitions over maps that
# do, which are the same words on lists (worked_rows/build.py, worked_rows/FinMap.txt), and has `rt check` take each row of
# worked_rows/rows by `refl`. A wrong value is refused, and both values are shown. Then it makes two rows wrong, one after
# the other, to see that these are refused. It works in a folder of its own, which it removes.
set -eu
here=$(cd "$(dirname "$0")" && pwd)/worked_rows
out=$(mktemp -d)
trap 'rm -rf "$out"' EXIT
echo 'worked:' > "$out/crates.txt"
python3 "$here/build.py" "$out/crates/worked"
cd "$out/crates/worked"
timeout 300 rt check > "$out/log" || { cat "$out/log"; exit 1; }
grep '^logic=proved' "$out/log"
echo "taken: $(cat specs/[A-Z]*.antt | grep -c '= refl$') rows by refl"

# One change of a file of rows, and the row that is to be refused then.
refuse() {
  cp "specs/$1.antt" "$out/kept"
  sed -i "$2" "specs/$1.antt"
  if timeout 300 rt check > "$out/log"; then
    echo "a wrong row is taken too: $3" >&2
    exit 1
  fi
  grep -q "^./specs/$1.antt.*\`$3\`" "$out/log" || { cat "$out/log"; exit 1; }
  mv "$out/kept" "specs/$1.antt"
  echo "a wrong row is refused: $3"
}

refuse Nodes 's/(answer.Max 9)/(answer.Max 3)/' maxima
refuse Lives 's/^in_order = taken ++ next_events$/in_order = next_events ++ taken/' they_are_parts
