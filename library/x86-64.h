/* x86-64.h: whether the processor has what x86-64-v2 has over the first x86-64, and calls by that. */
#include <cpuid.h>

/* 1 without and 2 with. */
__attribute__((noinline, cold)) static int find_x86_64_version(void) {
    const unsigned wanted =
        bit_SSE3 | bit_SSSE3 | bit_CMPXCHG16B | bit_SSE4_1 | bit_SSE4_2 | bit_POPCNT;
    unsigned a, b, basic = 0, extended = 0, d;
    if (!__get_cpuid(1, &a, &b, &basic, &d)) return 1;
    if (!__get_cpuid(0x80000001, &a, &b, &extended, &d)) return 1;
    return (basic & wanted) == wanted && (extended & bit_LAHF_LM) ? 2 : 1;
}

static inline int has_x86_64_v2(void) {
    static int version; /* 0 before the first call; all threads find the same */
    int it = __atomic_load_n(&version, __ATOMIC_RELAXED);
    if (__builtin_expect(!it, 0)) {
        it = find_x86_64_version();
        __atomic_store_n(&version, it, __ATOMIC_RELAXED);
    }
    return it == 2;
}

/* A call whose name ends in _v1 where it is compiled for every x86-64, and in _v2 for x86-64-v2. */
#define CALL(type, name, parameters, arguments) \
    __attribute__((visibility("hidden"))) type name##_v1 parameters; \
    __attribute__((visibility("hidden"))) type name##_v2 parameters; \
    type name parameters { return (has_x86_64_v2() ? name##_v2 : name##_v1) arguments; }
