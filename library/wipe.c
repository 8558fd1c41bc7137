/* purangsa_wipe: clears the dead stack and the registers after a call. include/purangsa.h says what that covers and what not.
 *
 * It is written in instructions, not in C: a compiler may drop stores that nothing reads, and leaves gaps in a frame of its own that it
 * would not clear. Here every byte below the return address goes to zero. The model is libsodium's sodium_stackzero. */
#include <cpuid.h>

#include "purangsa.h"

#ifndef __x86_64__
#error "written for x86-64, as the library is compiled for it"
#endif

/* Which vector registers there are beside SSE's sixteen. The processor is asked once, when the program starts: asking takes long. The
 * library itself uses SSE's only, but the C library's memcpy uses the widest that there are. */
__attribute__((used)) static unsigned char has_avx, has_avx512;

__attribute__((constructor)) static void look(void)
{
    enum { AVX_STATE = 0x06, AVX512_STATE = 0xe6 }; /* what the system keeps for a program: XCR0 */
    unsigned a, b, c, d, kept, upper;
    if (!__get_cpuid(1, &a, &b, &c, &d) || !(c & bit_OSXSAVE))
        return;
    __asm__ volatile("xgetbv" : "=a"(kept), "=d"(upper) : "c"(0));
    has_avx = (c & bit_AVX) && (kept & AVX_STATE) == AVX_STATE;
    if (has_avx && __get_cpuid_count(7, 0, &a, &b, &c, &d))
        has_avx512 = (b & bit_AVX512VL) && (kept & AVX512_STATE) == AVX512_STATE;
}

__attribute__((naked)) void purangsa_wipe(void)
{
    __asm__(".set wiped, 4096\n"
            /* The stack: down first, a page at most, so that a guard page is met, then every byte up to the return address. */
            "sub $wiped, %rsp\n"
            ".cfi_adjust_cfa_offset wiped\n"
            "mov %rsp, %rdi\n"
            "mov $wiped / 8, %ecx\n"
            "xor %eax, %eax\n"
            "rep stosq\n"
            "add $wiped, %rsp\n"
            ".cfi_adjust_cfa_offset -wiped\n"
            /* The vector registers: SSE's, or AVX's with them; then those that AVX-512 adds, each cleared in its whole width. */
            "testb $1, has_avx(%rip)\n"
            "jnz 1f\n"
            ".irp n, 0, 1, 2, 3, 4, 5, 6, 7, 8, 9, 10, 11, 12, 13, 14, 15\n"
            "pxor %xmm\\n, %xmm\\n\n"
            ".endr\n"
            "jmp 2f\n"
            "1: vzeroall\n"
            "testb $1, has_avx512(%rip)\n"
            "jz 2f\n"
            ".irp n, 16, 17, 18, 19, 20, 21, 22, 23, 24, 25, 26, 27, 28, 29, 30, 31\n"
            "vpxord %xmm\\n, %xmm\\n, %xmm\\n\n"
            ".endr\n"
            /* The general registers that a function need not keep; rax and rcx are 0. */
            "2: xor %edx, %edx\n"
            "xor %esi, %esi\n"
            "xor %edi, %edi\n"
            "xor %r8d, %r8d\n"
            "xor %r9d, %r9d\n"
            "xor %r10d, %r10d\n"
            "xor %r11d, %r11d\n"
            "ret\n");
}

_Static_assert(PURANGSA_WIPED == 4096, "what is cleared is what the header says");
