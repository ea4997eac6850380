/* What can't be said in C: the way to long mode, the VM entry and what comes back from it, two
   instructions that may fault, and the code that runs as a subject. */

    .section .entry, "ax"
    .code32
    .globl entry
entry:
    mov $bss_start, %edi
    mov $bss_end, %ecx
    sub %edi, %ecx
    shr $2, %ecx
    xor %eax, %eax
    rep stosl
    mov $stack_end, %esp
    mov %cr4, %eax
    or $0x620, %eax                 /* PAE, OSFXSR, OSXMMEXCPT */
    mov %eax, %cr4
    mov $level_4, %eax
    mov %eax, %cr3
    mov $0xc0000080, %ecx           /* IA32_EFER: long mode is enabled */
    rdmsr
    or $0x100, %eax
    wrmsr
    mov %cr0, %eax
    or $0x80000020, %eax            /* paging, NE as VMXON wants it */
    mov %eax, %cr0
    lgdt descriptors_pointer
    ljmp $8, $long_mode

    .code64
long_mode:
    mov $16, %eax
    mov %eax, %ds
    mov %eax, %es
    mov %eax, %ss
    mov %eax, %fs
    mov %eax, %gs
    call fill_gates
    lidt gates_pointer(%rip)
    call judge
1:  hlt
    jmp 1b

/* Every exception leads here; gate i pushes i. Of vector 13 the instructions below tell where to
   go on. */
    .text
fill_gates:
    lea gates(%rip), %rdi
    lea gate_entries(%rip), %rax
    mov $32, %ecx
1:  mov %ax, (%rdi)
    movw $8, 2(%rdi)
    movw $0x8e00, 4(%rdi)           /* interrupt gate (SDM 3A, "64-Bit Mode IDT") */
    mov %rax, %rdx
    shr $16, %rdx
    mov %dx, 6(%rdi)
    add $16, %rdi
    add $16, %rax
    loop 1b
    ret

    .balign 16
gate_entries:
    .set vector, 0
    .rept 32
    .balign 16
    push $vector
    jmp exception
    .set vector, vector + 1
    .endr

exception:
    pop %rdi
    cmp $13, %edi
    jne broken
    mov recovery(%rip), %rax
    test %rax, %rax
    jz broken
    add $8, %rsp                    /* the error code */
    mov %rax, (%rsp)
    iretq

/* bool read_msr(uint32_t index, uint64_t *value): whether RDMSR didn't fault */
    .globl read_msr
read_msr:
    lea 1f(%rip), %rax
    mov %rax, recovery(%rip)
    mov %edi, %ecx
    rdmsr
    mov %eax, (%rsi)
    mov %edx, 4(%rsi)
    movq $0, recovery(%rip)
    mov $1, %eax
    ret
1:  movq $0, recovery(%rip)
    xor %eax, %eax
    ret

/* bool write_msr(uint32_t index, uint64_t value): whether WRMSR didn't fault */
    .globl write_msr
write_msr:
    lea 1b(%rip), %rax
    mov %rax, recovery(%rip)
    mov %edi, %ecx
    mov %esi, %eax
    mov %rsi, %rdx
    shr $32, %rdx
    wrmsr
    movq $0, recovery(%rip)
    mov $1, %eax
    ret

/* uint64_t enter(struct registers *, uint64_t launched): VMLAUNCH or VMRESUME; 0 behind a VM exit,
   else 1 */
    .globl enter
enter:
    push %rbx
    push %rbp
    push %r12
    push %r13
    push %r14
    push %r15
    push %rdi
    mov $0x6c14, %eax               /* host RSP */
    vmwrite %rsp, %rax
    mov $0x6c16, %eax               /* host RIP */
    lea 2f(%rip), %rdx
    vmwrite %rdx, %rax
    test %rsi, %rsi
    mov (%rdi), %rax
    mov 8(%rdi), %rcx
    mov 16(%rdi), %rdx
    mov 24(%rdi), %rsi
    mov 32(%rdi), %rdi
    jnz 1f
    vmlaunch
    jmp 3f
1:  vmresume
3:  pop %rdi
    mov $1, %eax
    jmp 4f
2:  pop %rdi
    mov %rax, (%rdi)
    xor %eax, %eax
4:  pop %r15
    pop %r14
    pop %r13
    pop %r12
    pop %rbp
    pop %rbx
    ret

/* The code that runs as a subject, in pieces of 8 bytes; `enum piece` of stub.c has their order.
   RSI and RDI are the address, EDX the port, ECX the MSR, RAX what is stored. Behind each stands
   VMCALL: the exit 18 says that the access was made. */
    .globl guest_code, guest_code_end
    .macro piece instruction:vararg
    .balign 8
    \instruction
    vmcall
    .endm
    .section .rodata
    .balign 8
guest_code:
    piece movzbl (%rsi), %eax
    piece movzwl (%rsi), %eax
    piece movl (%rsi), %eax
    piece movq (%rsi), %rax
    piece movb %al, (%rdi)
    piece movw %ax, (%rdi)
    piece movl %eax, (%rdi)
    piece movq %rax, (%rdi)
    piece inb %dx, %al
    piece inw %dx, %ax
    piece inl %dx, %eax
    piece outb %al, %dx
    piece outw %ax, %dx
    piece outl %eax, %dx
    piece insb
    piece insw
    piece insl
    piece outsb
    piece outsw
    piece outsl
    piece rdmsr
    piece wrmsr
    piece nop
    .balign 8
guest_code_end:

    .data
    .balign 16
descriptors:
    .quad 0
    .quad 0x00af9b000000ffff        /* code, 64 bits */
    .quad 0x00cf93000000ffff        /* data */
descriptors_pointer:
    .word . - descriptors - 1
    .quad descriptors
gates_pointer:
    .word 32 * 16 - 1
    .quad gates

/* Each address below 4 GiB is itself, in pages of 1 GiB. */
    .balign 4096
level_4:
    .quad level_3 + 3
    .fill 511, 8, 0
level_3:
    .quad 0x00000083, 0x40000083, 0x80000083, 0xc0000083
    .fill 508, 8, 0

    .bss
    .balign 16
gates:
    .skip 32 * 16
recovery:
    .skip 8
    .balign 16
    .skip 16384
stack_end:
