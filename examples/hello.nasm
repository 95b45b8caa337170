; Writes a line to standard output, and ends with status 0. For NASM:
;     nasm -f elf32 -o hello.o hello.nasm && ld -m elf_i386 -o hello hello.o
        global _start
        section .text
_start: mov eax, 4              ; write
        mov ebx, 1
        mov ecx, line
        mov edx, length
        int 0x80
        mov eax, 1              ; exit
        xor ebx, ebx
        int 0x80
        section .rodata
line:   db "Hello.", 10
length  equ $ - line
