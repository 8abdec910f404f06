#!/bin/sh
# Compiles the C programs for both instruction sets: the code words as NAME_rv.code and NAME_ppc.code, and the listing of objdump as .lst.
# Those of adler32 are kept here. Those of the other programs go to ../programs, with the call that is run as .entry, and the state in which
# it ends as .state, which ../cases/program_states.py works out by its models of the instructions. The same C is compiled for the machine
# that this runs on, and what the function returns there has to stand in the state. The files that are kept were made by GCC 12.2.0 and
# binutils 2.40 of Debian 12 (gcc-riscv64-linux-gnu, gcc-powerpc-linux-gnu).
set -eu
cd "$(dirname "$0")"
room=$(mktemp -d)
trap 'rm -rf "$room"' EXIT

# compile_ISA NAME OPTIMISATION, link_ISA FUNCTION ADDRESSES..
compile_rv() {
    riscv64-linux-gnu-gcc -march=rv32i -mabi=ilp32 -msmall-data-limit=0 "$2" -ffreestanding -fno-pic -c "$1.c" -o "$room/rv.o"
}
compile_ppc() {
    powerpc-linux-gnu-gcc -mcpu=powerpc "$2" -ffreestanding -fno-pic -c "$1.c" -o "$room/ppc.o"
}
link_rv() {
    function=$1; shift
    riscv64-linux-gnu-ld -m elf32lriscv -Ttext=0x1000 "$@" -e "$function" "$room/rv.o" -o "$room/rv.elf"
}
link_ppc() {
    function=$1; shift
    powerpc-linux-gnu-ld --no-warn-rwx-segments -Ttext=0x1000 "$@" -e "$function" "$room/ppc.o" -o "$room/ppc.elf"
}

compile_rv adler32 -O1
link_rv keep -Tdata=0x3000
riscv64-linux-gnu-objcopy -O binary -j .text "$room/rv.elf" adler32_rv.code
riscv64-linux-gnu-objdump -d -M no-aliases --no-show-raw-insn "$room/rv.elf" | sed '1,4d' > adler32_rv.lst

compile_ppc adler32 -O1
link_ppc keep -Tdata=0x3000 --section-start=.sbss=0x3000
powerpc-linux-gnu-objcopy -O binary -j .text "$room/ppc.elf" adler32_ppc.code
powerpc-linux-gnu-objdump -d --no-show-raw-insn "$room/ppc.elf" | sed '1,4d' > adler32_ppc.lst

# What differs of the two: the tools, what objdump is given, the name of the specification, and the registers by their numbers.
set_rv() {
    tools=riscv64-linux-gnu style='-M no-aliases,numeric' told=RV32I result='x[10]'
    registers="x[1] fffffffc|x[2] 00003000|x[3] GP|x[10] ARG1|x[11] ARG2"
}
set_ppc() {
    tools=powerpc-linux-gnu style= told=PowerPC result='gpr[3]'
    registers="gpr[1] 00003000|gpr[3] ARG1|gpr[4] ARG2|spr[LR] fffffffc"
}

# Prints the listing, of which each line has the label, the address, the word, and the instruction.
listing() {
    printf '# %s(%s) of %s.c, by gcc %s: %s, at 00001000. It returns %s.\n' "$function" "$arguments" "$name" "$optimisation" "$told" "$returned"
    echo '# label, address, word, assembly'
    "$tools-objdump" -d $style "$elf" | awk -F '\t' '
        function padded(text, width) { while (length(text) < width) text = text " "; return text }
        /^[0-9a-f]+ <.*>:$/ { label = $0; sub(/^[^<]*</, "", label); sub(/>:$/, ":", label); if (length(label) > widest) widest = length(label); next }
        NF > 2 {
            address = substr($1, 1, length($1) - 1); word = $2; gsub(/ /, "", address); gsub(/ /, "", word)
            mnemonic = $3; sub(/ +$/, "", mnemonic); text = NF > 3 ? $4 : ""
            if (text == "") { text = mnemonic; sub(/^[^ ]* */, "", text); sub(/ .*/, "", mnemonic) }
            labels[++count] = label; label = ""
            texts[count] = substr("00000000", length(address) + 1) address "  " word "  " padded(mnemonic, 6) " " text
        }
        END { for (i = 1; i <= count; i++) { line = padded(labels[i], widest + 1) texts[i]; sub(/ +$/, "", line); print line } }'
}

# Prints the entry: the registers of a call, the stack below 00003000, and each byte of the sections of data.
entry() {
    printf '# The call %s(%s), with the stack below 00003000 and the data from 00004000 on.\n' "$function" "$arguments"
    printf 'pc %s\n' "$("$tools-nm" "$elf" | awk -v name="$function" '$3 == name { print $1 }')"
    first=${arguments%%,*} second=${arguments#*, }
    [ "$second" != "$arguments" ] || second=
    pointer=$("$tools-nm" "$elf" | awk '$3 == "__global_pointer$" { print $1 }')
    echo "$registers" | tr '|' '\n' | sed "s/ARG1/${first#0x}/; s/ARG2/${second#0x}/; s/GP/$pointer/" | grep -v ' $'
    for section in .rodata .data .bss; do
        at=$("$tools-objdump" -h "$elf" | awk -v name="$section" '$2 == name && $3 != "00000000" { print $4 }')
        [ -n "$at" ] || continue
        "$tools-objcopy" -O binary -j "$section" --set-section-flags "$section=alloc,load,contents" "$elf" "$room/bytes"
        printf 'mem[%s..] %s\n' "$at" "$(od -An -v -tx1 "$room/bytes" | tr -d ' \n')"
    done
}

# What the function returns on this machine.
native() {
    printf '#include <stdio.h>\n#include "%s/%s.c"\nint main(void) { return printf("%%08x\\n", %s(%s)) != 9; }\n' "$PWD" "$name" "$function" "$arguments" > "$room/native.c"
    cc -O1 "$room/native.c" -o "$room/native"
    "$room/native"
}

# program NAME FUNCTION "ARGUMENTS" OPTIMISATION_RV OPTIMISATION_PPC
program() {
    name=$1 function=$2 arguments=$3
    returned=$(native)
    for isa in rv ppc; do
        optimisation=$4
        [ "$isa" = rv ] || optimisation=$5
        "set_$isa"
        "compile_$isa" "$name" "$optimisation"
        "link_$isa" "$function" --section-start=.rodata=0x4000 -Tdata=0x4400 -Tbss=0x4800
        elf="$room/$isa.elf" made="../programs/${name}_$isa"
        "$tools-objcopy" -O binary -j .text "$elf" "$made.code"
        listing > "$made.lst"
        entry > "$made.entry"
        python3 ../cases/program_states.py "$made"
        found=$(sed -n "s/^$(echo "$result" | sed 's/[][]/\\&/g') //p" "$made.state")
        [ "${found:-00000000}" = "$returned" ] || { echo "${name}_$isa returns $found, and here $returned" >&2; exit 1; }
    done
}

program base64 key_in_base64 "" -O1 -O1
program bits pins 0x00a40c30 -O1 -O2
program crc16 crc16_of_frame "" -O1 -O1
program fixed length "0x0340, 0x0180" -O1 -O1
program frames good_and_bad "" -O1 -O1
program gcd divisor "0x4b0, 0x1c2" -O1 -O1
program handlers answered "" -O2 -O2
program machine interpreted 0x3 -O2 -O1
program queens queens 0x4 -O1 -O1
program ring passed_on "" -O1 -O1
program rounds hash "" -O1 -O2
program search degrees 0x1a4 -Os -O1
program sort median "" -O2 -O1
program strings message "" -Os -O1
chmod a-x ./*.code ../programs/*.code
