/* Each call of vicemint.h, wrapped on x86-64: the stack below it is painted, and scanned when the call came back. What was most in use under
 * a call, in octets and with its return address, stands in measured_stack by its number. calls.h has CALL(number, name) for each. A
 * program is linked with -Wl,--wrap=NAME for each, and with measure_stack.c, which tells the numbers; bench/c_sizes.py does so. */
#define DEPTH 32768
#define PAINT 0x5aa5a55a

    .bss
    .balign 8
    .globl measured_stack
measured_stack:
    .skip 8 * 256
back:
    .skip 8
which:
    .skip 8

    .text
#define CALL(number, name) \
    .globl __wrap_##name; \
__wrap_##name: \
    lea __real_##name(%rip), %r11; \
    mov $number, %r10d; \
    jmp painted;
#include "calls.h"

/* Words that the call finds on the stack are where it wants them, since its return address takes the place of the caller's. */
painted:
    mov %r10, which(%rip)
    pop back(%rip)
    lea -DEPTH(%rsp), %r10
1:  movq $PAINT, (%r10)
    add $8, %r10
    cmp %rsp, %r10
    jb 1b
    call *%r11
    lea -DEPTH(%rsp), %r10
2:  cmpq $PAINT, (%r10)
    jne 3f
    add $8, %r10
    cmp %rsp, %r10
    jb 2b
3:  mov %rsp, %rcx
    sub %r10, %rcx
    mov which(%rip), %r10
    lea measured_stack(%rip), %r11
    cmp %rcx, (%r11, %r10, 8)
    jae 4f
    mov %rcx, (%r11, %r10, 8)
4:  jmp *back(%rip)

    .section .note.GNU-stack, "", @progbits
