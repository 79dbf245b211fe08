#!/bin/sh
# Compares one word of each instruction with what the disassembler of GNU binutils says of it. The words are those of the test
# `words_with_different_fields` in crates/machine_tests/src/instructions.rt, which reads each as the instruction that is written here in the
# manual's notation. Each word stands at 0x00400000, in big-endian order.
set -eu

tool=${OBJDUMP:-mips-linux-gnu-objdump}
if ! command -v "$tool" >/dev/null 2>&1; then
    echo "skipped: $tool is not installed (Debian: binutils-mips-linux-gnu)"
    exit 0
fi

file=$(mktemp)
trap 'rm -f "$file"' EXIT

disassembled() {
    for byte in $(echo "$1" | sed 's/../& /g'); do
        # shellcheck disable=SC2059
        printf "\\$(printf '%03o' "0x$byte")"
    done >"$file"
    "$tool" -D -z -b binary -m mips:3000 -EB -M no-aliases,reg-names=numeric --adjust-vma=0x00400000 "$file" |
        sed -n 's/^ *400000:[[:space:]]*[0-9a-f]*[[:space:]]*//p' | tr -s '[:space:]' ' ' | sed 's/ $//'
}

tried=0
wrong=0
while read -r word text; do
    [ -n "$word" ] || continue
    tried=$((tried + 1))
    said=$(disassembled "$word")
    if [ "$said" != "$text" ]; then
        wrong=$((wrong + 1))
        echo "$word: the table says '$text', $tool says '$said'"
    fi
done <<'TABLE'
00053f40 sll $7,$5,0x1d
00053f42 srl $7,$5,0x1d
00053f43 sra $7,$5,0x1d
01253804 sllv $7,$5,$9
01253806 srlv $7,$5,$9
01253807 srav $7,$5,$9
01200008 jr $9
0000000c syscall
0000004d break 0x0,0x1
00003810 mfhi $7
00003812 mflo $7
01250018 mult $9,$5
01250019 multu $9,$5
0125001a div $0,$9,$5
0125001b divu $0,$9,$5
01253820 add $7,$9,$5
01253821 addu $7,$9,$5
01253822 sub $7,$9,$5
01253823 subu $7,$9,$5
01253824 and $7,$9,$5
01253825 or $7,$9,$5
01253826 xor $7,$9,$5
01253827 nor $7,$9,$5
0125382a slt $7,$9,$5
0125382b sltu $7,$9,$5
08100003 j 0x40000c
0c100003 jal 0x40000c
11250002 beq $9,$5,0x40000c
15250002 bne $9,$5,0x40000c
2125fffe addi $5,$9,-2
2525fffe addiu $5,$9,-2
2925fffe slti $5,$9,-2
2d25fffe sltiu $5,$9,-2
3125fffe andi $5,$9,0xfffe
3525fffe ori $5,$9,0xfffe
3925fffe xori $5,$9,0xfffe
3c05fffe lui $5,0xfffe
8d25fffe lw $5,-2($9)
ad25fffe sw $5,-2($9)
TABLE

echo "$tried words compared with $tool, $wrong differ"
[ "$wrong" -eq 0 ]
