#!/usr/bin/env bash
# Compiles texts that a careless compiler takes long over: deep nesting, and a million of each sign. Each has to end in its refusal
# within a second. Build the program first: rt ci. Needs python3.
set -u
top=$(cd "$(dirname "$0")/../.." && pwd)
program=$top/crates/hardcc/out/hardcc
[ -x "$program" ] || { echo "skipped: $program is not built"; exit 0; }
folder=$(mktemp -d)
trap 'rm -rf "$folder"' EXIT
cd "$folder" || exit 1

failed=0
slowest=0
# $1: what the text is; the text stands in a.c
refused() {
  rm -f a.img
  from=$(date +%s%N)
  status=0
  said=$("$program" compile a.c a.img) || status=$?
  took=$((($(date +%s%N) - from) / 1000000))
  [ "$took" -le "$slowest" ] || slowest=$took
  if [ "$status" != 3 ] || [ "$took" -gt 1000 ] || [ -e a.img ]; then
    echo "$1: status $status, $said, $took ms"
    failed=$((failed + 1))
  fi
}

python3 -c "print('int main(void){return ' + '(' * 600000)" > a.c
refused '600,000 opening parentheses'
python3 -c "print('int main(void){' + 'if(1);else ' * 90000 + ';}')" > a.c
refused '90,000 else if in a row'
python3 -c "print('int main(void){' + 'if(1);else ' * 300000 + ';}')" > a.c
refused '300,000 else if in a row, more bytes than a source may have'
python3 -c "print('int main(void){' + 'else if' * 140000 + '}')" > a.c
refused '140,000 else if without an if'
python3 -c "print('int main(void){' + '{' * 1000000)" > a.c
refused '1,000,000 opening braces'
for code in $(seq 32 126); do
  python3 -c "print(chr($code) * 1000000, end='')" > a.c
  refused "1,000,000 bytes of the sign $code"
done
python3 -c "print('/*' * 500000, end='')" > a.c
refused '500,000 openings of a comment'
echo "the slowest took $slowest ms, $failed differ"
exit "$((failed > 0))"
