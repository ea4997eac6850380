/* The ROM of 64 KiB below 4 GiB: where a processor begins (Intel SDM 3A, "First Instruction
   Executed": FFFFFFF0H). It goes to protected mode, copies the stub to the place that was chosen
   for it, above all memory of the image, and jumps there. It uses no memory of its own. */

    .set FAST_A20, 0x92

    .section .stub, "a"
stub:
    .incbin "stub.bin"
    .balign 4
stub_end:

    .section .reset, "ax"
    .code16
    .globl start, descriptors_pointer
start:
    cli
    cld
    in $FAST_A20, %al
    or $2, %al
    out %al, $FAST_A20
    lgdtl %cs:descriptors_offset    /* reset.ld has the two offsets */
    mov %cr0, %eax
    or $1, %al
    mov %eax, %cr0
    ljmpl $8, $protected

    .code32
protected:
    mov $16, %eax
    mov %eax, %ds
    mov %eax, %es
    mov %eax, %ss
    mov $stub, %esi
    mov $stub_base, %edi
    mov $(stub_end - stub) / 4, %ecx
    rep movsl
    mov $stub_base, %eax
    jmp *%eax

    .balign 8
descriptors:
    .quad 0
    .quad 0x00cf9b000000ffff        /* code, 32 bits, all addresses */
    .quad 0x00cf93000000ffff        /* data */
descriptors_pointer:
    .word . - descriptors - 1
    .long descriptors

    .section .vector, "ax"
    .code16
    .byte 0xe9                      /* JMP, 16 bits, to `start` */
    .word start_offset
