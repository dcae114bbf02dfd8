/* The start of the release's programs, in place of the C library's own, so that they run with glibc 2.31 or later.

   An object that starts a program today asks for __libc_start_main of glibc 2.34, which runs the program's constructors
   itself. The one of glibc 2.2.5 is still in every later glibc, and runs what the program's start names to it. Here
   this runs the constructors: one of the kit keeps the words of the command line.

   Rattle's main asks glibc 2.33 which instructions the processor has, and ends if it isn't an x86-64-v2. Here the
   processor itself answers. */
#include <cpuid.h>

typedef void constructor(int count, char **words, char **environment);

/* The linker says where the constructors are. */
extern constructor *const __init_array_start[] __attribute__((visibility("hidden")));
extern constructor *const __init_array_end[] __attribute__((visibility("hidden")));

constructor run_constructors __attribute__((used, visibility("hidden")));

void run_constructors(int count, char **words, char **environment) {
    constructor *const *at;
    for (at = __init_array_start; at != __init_array_end; at++) (*at)(count, words, environment);
}

__asm__(".symver start_main, __libc_start_main@GLIBC_2.2.5\n"
        ".text\n"
        ".globl _start\n"
        ".type _start, @function\n"
        "_start:\n"
        "    xorl %ebp, %ebp\n"
        "    movq %rdx, %r9\n" /* what the loader has to end */
        "    popq %rsi\n"      /* the count of words */
        "    movq %rsp, %rdx\n" /* the words */
        "    andq $-16, %rsp\n"
        "    pushq %rax\n"
        "    pushq %rsp\n"      /* the end of the stack */
        "    xorl %r8d, %r8d\n" /* the loader runs the destructors */
        "    leaq run_constructors(%rip), %rcx\n"
        "    movq main@GOTPCREL(%rip), %rdi\n"
        "    call *start_main@GOTPCREL(%rip)\n"
        "    hlt\n"
        ".size _start, . - _start\n");

/* What glibc answers for a group of features: registers a, b, c and d as the processor has them, and the same with
   those features alone that the system lets a program use. */
struct cpu_features {
    unsigned int has[4];
    unsigned int may_use[4];
};

/* The groups that Rattle's main asks for: their numbers in glibc and in the processor, and their bits of register c.
   The system need not allow these features. */
static const struct {
    unsigned int group;
    unsigned int leaf;
    unsigned int bits;
} ASKED[] = {
    {0, 1, bit_SSE3 | bit_SSSE3 | bit_CMPXCHG16B | bit_SSE4_1 | bit_SSE4_2 | bit_POPCNT},
    {2, 0x80000001, bit_LAHF_LM},
};

__attribute__((visibility("hidden"))) const struct cpu_features *__x86_get_cpuid_feature_leaf(unsigned int group);

const struct cpu_features *__x86_get_cpuid_feature_leaf(unsigned int group) {
    static struct cpu_features found[sizeof ASKED / sizeof ASKED[0] + 1];
    unsigned int place, a, b, c, d;
    for (place = 0; place < sizeof ASKED / sizeof ASKED[0]; place++) {
        if (ASKED[place].group == group && __get_cpuid(ASKED[place].leaf, &a, &b, &c, &d)) {
            found[place].has[2] = found[place].may_use[2] = c & ASKED[place].bits;
            break;
        }
    }
    return &found[place];
}
