# A firmware that takes INTA of the controller by the 8259: it leaves its cause at two interrupts, clears it at the third, and tells
# how many came and what IS reads then: `aiii30` where the line is a level, which falls when its cause is cleared.
        .include "firmware.inc"
        .set    COUNT, 0x6000
        .globl  _start
        .code32
_start:
main:   begins
        lidt    idtr
        mov     $pics, %esi
1:      movzwl  (%esi), %edx
        mov     2(%esi), %al
        add     $3, %esi
        test    %dx, %dx
        jz      2f
        out     %al, %dx
        jmp     1b
2:      mov     $0x80000860, %eax       # PIIX3: PIRQB is IRQ 10
        mov     $0x80800a80, %ebx
        call    conf
        movl    $0x1ff, 0xfee000f0      # the local APIC lets the 8259 through
        movl    $0x700, 0xfee00350
        put     $'a'
        movl    $0x80000002, GHC        # AE, IE
        movl    $0x10000, PxCLB
        movl    $0x10400, PxFB
        movl    $-1, PxIE
        movl    $0x11, PxCMD            # FRE, ST: the signature comes, and PxIS is not 0
        sti
        mov     $4000, %ecx
3:      mov     IS, %eax
        cmpl    $3, COUNT
        jae     4f
        loop    3b
4:      mov     $200, %ecx
5:      mov     IS, %eax                # more would come here
        loop    5b
        cli
        mov     COUNT, %al
        add     $'0', %al
        put     %al
        mov     IS, %al
        add     $'0', %al
        put     %al
        ends
irq:    pusha
        incl    COUNT
        put     $'i'
        cmpl    $3, COUNT
        jb      6f
        movl    $-1, PxSERR             # PxIS.PCS is PxSERR.DIAG.X
        movl    $-1, PxIS
        movl    $-1, IS
6:      mov     $0x20, %al              # ends of interrupt
        mov     $0xa0, %dx
        out     %al, %dx
        mov     $0x20, %dx
        out     %al, %dx
        popa
        iret
        .macro  port number, value
        .word   \number
        .byte   \value
        .endm
pics:   port    0x20, 0x11
        port    0x21, 0x68
        port    0x21, 0x4
        port    0x21, 0x1
        port    0x21, 0xfb
        port    0xa0, 0x11
        port    0xa1, 0x70
        port    0xa1, 0x2
        port    0xa1, 0x1
        port    0xa1, 0xfb
        port    0x4d1, 0x4              # IRQ 10 is a level
        .word   0
        .byte   0
        .balign 8
idtr:   .word   0x73 * 8 - 1
        .long   idt
        .balign 8
idt:    .fill   0x72, 8, 0
        .word   irq - _start, 8, 0x8e00, 0xffff # the ROM stands at ffff0000h
        rom
