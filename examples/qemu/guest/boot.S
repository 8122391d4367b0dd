# A boot sector: tells on the serial line that it runs, then has the firmware read sectors 1 and 100 of its disk (int 13h, 42h), and
# prints their text, or that they can't be read. The image has 101 sectors.
        .code16
        .globl  _start
_start: xor     %ax, %ax
        mov     %ax, %ds
        mov     %ax, %es
        mov     %ax, %ss
        mov     $0x7c00, %sp
        cld
        mov     %dl, drive
        mov     $hello, %si
        call    print
        movw    $1, lba
        call    show
        movw    $100, lba
        call    show
end:    mov     $0xf4, %dx              # isa-debug-exit, where there is one: status 33
        mov     $0x10, %al
        out     %al, %dx
        hlt
        jmp     end
show:   mov     $packet, %si
        mov     drive, %dl
        mov     $0x42, %ah
        int     $0x13
        mov     $0x8000, %si
        jnc     print
        mov     $denied, %si
print:  lodsb
        test    %al, %al
        jz      1f
        mov     $0x3f8, %dx
        out     %al, %dx
        jmp     print
1:      ret
drive:  .byte   0
packet: .byte   16, 0                   # one sector, to 0000:8000
        .word   1, 0x8000, 0
lba:    .quad   1
hello:  .asciz  "boot sector: I run from the drive\r\n"
denied: .asciz  "boot sector: int 13h could not read the sector\r\n"
        .org    510
        .word   0xaa55
        .asciz  "boot sector: sector 1 was read by int 13h\r\n"
        .org    100 * 512
        .asciz  "boot sector: sector 100 was read by int 13h\r\n"
        .org    101 * 512
