#!/usr/bin/env bash
# Compares what each program of examples/ puts out, compiled in every way that hardcc has, with its wanted output and with what the
# host's C compiler makes of the same text. Build the program first: rt ci, or name it in HARDCC.
set -eu
top=$(cd "$(dirname "$0")/../.." && pwd)
program=${HARDCC:-$top/crates/hardcc/out/hardcc}
compiler=$(command -v gcc || command -v clang || true)
[ -x "$program" ] || { echo "skipped: $program is not built"; exit 0; }
[ -n "$compiler" ] || echo "skipped in part: neither gcc nor clang is installed; only the wanted outputs are compared"
folder=$(mktemp -d)
trap 'rm -rf "$folder"' EXIT
cd "$folder"
failed=0
compared=0
# same WHAT NAME: whether the file `told` holds the wanted output of the example.
same() {
  compared=$((compared + 1))
  if ! cmp -s told "$top/examples/$2.out"; then
    echo "differs: $1 of $2"
    failed=$((failed + 1))
  fi
}
for source in "$top"/examples/*.c; do
  name=$(basename "$source" .c)
  [ "$name" = native ] && continue
  for command in compile compile-split; do
    "$program" "$command" "$source" "$name.img" > said || { cat said; failed=$((failed + 1)); continue; }
    "$program" run "$name.img" "$top/examples/$name.in" 10000000 > told
    same "$command" "$name"
  done
  "$program" eval "$source" "$top/examples/$name.in" 10000000 > told
  same eval "$name"
  [ -n "$compiler" ] || continue
  for level in -O0 -O2; do
    "$compiler" $level -fwrapv -w -include "$top/examples/native.c" -o "$name" "$source"
    "./$name" < "$top/examples/$name.in" > told
    same "$compiler $level" "$name"
  done
done
echo "$compared compared, $failed differ"
exit "$((failed > 0))"
