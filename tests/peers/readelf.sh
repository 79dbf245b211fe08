#!/usr/bin/env bash
# Compares a written image with what readelf says of it. Build the program first: rt ci.
set -eu
top=$(cd "$(dirname "$0")/../.." && pwd)
program=$top/crates/hardcc/out/hardcc
command -v readelf >/dev/null || { echo "skipped: readelf is not installed"; exit 0; }
[ -x "$program" ] || { echo "skipped: $program is not built"; exit 0; }
folder=$(mktemp -d)
trap 'rm -rf "$folder"' EXIT
cd "$folder"
printf 'int main(void){ out_word(5); return 0; }' > a.c
"$program" compile a.c a.img >/dev/null
readelf -W -a a.img > told 2> warnings
failed=0
expect() {
  if ! tr -s ' ' < told | grep -qF -- "$1"; then
    echo "not told: $1"
    failed=$((failed + 1))
  fi
}
[ -s warnings ] && { cat warnings; failed=$((failed + 1)); }
expect 'Class: ELF32'
expect "Data: 2's complement, big endian"
expect 'Type: EXEC (Executable file)'
expect 'Machine: MIPS R3000'
expect 'Entry point address: 0x400000'
expect 'Start of program headers: 52 (bytes into file)'
expect 'Start of section headers: 8388 (bytes into file)'
expect 'Number of program headers: 2'
expect 'Number of section headers: 6'
expect 'LOAD 0x001000 0x00400000 0x00400000 0x00128 0x00128 R E 0x1000'
expect 'LOAD 0x002000 0x10010000 0x10010000 0x00000 0x00010 RW 0x1000'
expect '[ 1] .text PROGBITS 00400000 001000 000128 00 AX 0 0 4'
expect '[ 2] .data PROGBITS 10010000 002000 000000 00 WA 0 0 8'
expect '[ 3] .eddi.windows PROGBITS 00000000 002000 000090 08 0 0 4'
expect '[ 4] .cfcss.aliases PROGBITS 00000000 002090 000000 08 0 0 4'
expect '[ 5] .shstrtab STRTAB 00000000 002090 000034 00 0 0 1'
echo "$failed differ"
exit "$((failed > 0))"
