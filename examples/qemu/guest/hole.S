# A firmware that has the controller read sector 0 with an address in the hole at D0000000h: of the block, of the command table, of the
# command list, of received FISes. It tells `h` where PxIS.HBFS is set then. Then it reads sector 0 into memory twice, the second time
# with a second block in the hole, to which no data come; it tells `r` where PxCI is 0 and the sector is a boot sector. So `hhhhrr`.
        .include "firmware.inc"
        .set    HOLE, 0xd0000000
        .set    LIST, 0x10000
        .set    RECEIVED, 0x10400
        .set    TABLE, 0x11000
        .set    DATA, 0x12000
        .globl  _start
        .code32
_start:
main:   begins
        movl    $0x80000000, GHC
        movl    $0x00258027, TABLE      # READ DMA EXT of one sector
        movl    $0x40000000, TABLE + 4
        movl    $1, TABLE + 12
        movl    $511, TABLE + 0x8c
        movl    $5 | 1 << 16, LIST
        mov     $LIST, %ebx
        mov     $RECEIVED, %ecx
        mov     $TABLE, %esi
        mov     $HOLE, %edi
        call    reads
        mov     $HOLE, %esi
        mov     $DATA, %edi
        call    reads
        mov     $TABLE, %esi
        mov     $HOLE, %ebx
        call    reads
        mov     $LIST, %ebx
        mov     $HOLE, %ecx
        call    reads
        mov     $RECEIVED, %ecx
        call    reads
        movl    $5 | 2 << 16, LIST
        movl    $HOLE, TABLE + 0x90
        movl    $511, TABLE + 0x9c
        movl    $0, DATA + 508
        call    reads
        ends
reads:  movl    $0x10, PxCMD            # ST 0: the port stops, and has no error from here on
        movl    $-1, PxIS
        mov     %ebx, PxCLB
        mov     %ecx, PxFB
        mov     %esi, LIST + 8
        mov     %edi, TABLE + 0x80
        movl    $0x11, PxCMD
        movl    $1, PxCI
        mov     PxIS, %eax
        mov     $'h', %ah
        test    $0x20000000, %eax       # HBFS
        jnz     1f
        mov     $'?', %ah
        cmpl    $0, PxCI
        jne     1f
        cmpw    $0xaa55, DATA + 510
        jne     1f
        mov     $'r', %ah
1:      put     %ah
        ret
        rom
