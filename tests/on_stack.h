/* on_stack.h: a call on a stack of its own, for what looks at that stack afterwards. x86-64. */
#ifndef ON_STACK_H
#define ON_STACK_H
#include <stdint.h>

enum { STACK = 1 << 18 };
static uint8_t stack[STACK] __attribute__((aligned(4096)));

/* what stood in the registers when the call came back: rax, rcx, rdx, rsi, rdi, r8 to r11, and xmm0 to xmm15 */
uint8_t registers[9 * 8 + 16 * 16];

/* calls f with the stack pointer at top; with step not 0 the processor traps after each instruction */
void on_stack(void (*f)(void), void *top, long step);
__asm__(".text\non_stack:\n"
        "    push %rbp\n    mov %rsp, %rbp\n    mov %rsi, %rsp\n"
        "    test %rdx, %rdx\n    jz 1f\n    pushfq\n    orq $0x100, (%rsp)\n    popfq\n"
        "1:  call *%rdi\n"
        "    mov %rax, registers(%rip)\n    mov %rcx, registers+8(%rip)\n    mov %rdx, registers+16(%rip)\n"
        "    mov %rsi, registers+24(%rip)\n    mov %rdi, registers+32(%rip)\n    mov %r8, registers+40(%rip)\n"
        "    mov %r9, registers+48(%rip)\n    mov %r10, registers+56(%rip)\n    mov %r11, registers+64(%rip)\n"
        "    .irp n, 0, 1, 2, 3, 4, 5, 6, 7, 8, 9, 10, 11, 12, 13, 14, 15\n    movups %xmm\\n, registers+72+16*\\n(%rip)\n    .endr\n"
        "    pushfq\n    andq $~0x100, (%rsp)\n    popfq\n"
        "    mov %rbp, %rsp\n    pop %rbp\n    ret\n");
#endif
