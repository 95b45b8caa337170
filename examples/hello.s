# Writes a line to standard output, and ends with status 0. For as:
#     as --32 -o hello.o hello.s && ld -m elf_i386 -o hello hello.o
        .globl _start
        .text
_start: movl $4, %eax           # write
        movl $1, %ebx
        movl $line, %ecx
        movl $length, %edx
        int $0x80
        movl $1, %eax           # exit
        xorl %ebx, %ebx
        int $0x80
        .section .rodata
line:   .ascii "Hello.\n"
        .set length, . - line
