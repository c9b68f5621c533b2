/* What the forms of C are written with: whole numbers are exact in 128 bits. For GCC and Clang. */
#ifndef DK_TOLD_H
#define DK_TOLD_H
#include <stdbool.h>
#include <stddef.h>
#include <stdio.h>
#include <stdlib.h>
#include <string.h>

#define dk_int(x) ((__int128) (x))
#define dk_bool(x) ((bool) (x))
#define dk_code(x) ((const void *) (x))
#define dk_wide(high, low) ((__int128) (((unsigned __int128) (high) << 64) | (low)))

/* Whether the condition holds at each, or at some, place k from start on and before end. */
#define dk_all(k, start, end, condition) \
    ({ bool dk_so = true; for (__int128 k = (start), dk_end = (end); dk_so && k < dk_end; k++) dk_so = (condition); dk_so; })
#define dk_any(k, start, end, condition) \
    ({ bool dk_so = false; for (__int128 k = (start), dk_end = (end); !dk_so && k < dk_end; k++) dk_so = (condition); dk_so; })

/* Whether x is one of the numbers, or of the strings, after it. */
#define dk_one_of(x, ...) \
    ({ const __int128 dk_list[] = {__VA_ARGS__}; dk_is_one_of((x), dk_list, sizeof dk_list / sizeof *dk_list); })
#define dk_one_text(x, ...) \
    ({ const char *const dk_list[] = {__VA_ARGS__}; dk_is_one_text((x), dk_list, sizeof dk_list / sizeof *dk_list); })

/* A line that is told: where it doesn't hold the program ends. Define it beforehand to do something else. */
#ifndef dk_holds
#define dk_holds(text, ...) \
    ((__VA_ARGS__) ? (void) 0 : (fprintf(stderr, "%s:%d: %s: %s\n", __FILE__, __LINE__, __func__, text), abort()))
#endif

__attribute__((unused)) static bool dk_is_one_of(__int128 x, const __int128 *list, size_t size) {
    for (size_t i = 0; i < size; i++)
        if (list[i] == x) return true;
    return false;
}

__attribute__((unused)) static bool dk_same_text(const char *a, const char *b) {
    return a == b || (a != NULL && b != NULL && strcmp(a, b) == 0);
}

__attribute__((unused)) static bool dk_is_one_text(const char *x, const char *const *list, size_t size) {
    for (size_t i = 0; i < size; i++)
        if (dk_same_text(list[i], x)) return true;
    return false;
}

/* The remainder that is at least 0; the modulus is above 0. */
__attribute__((unused)) static __int128 dk_modulo(__int128 x, __int128 modulus) {
    return (x % modulus + modulus) % modulus;
}

__attribute__((unused)) static __int128 dk_gcd(__int128 a, __int128 b) {
    a = a < 0 ? -a : a;
    b = b < 0 ? -b : b;
    while (b != 0) {
        __int128 rest = a % b;
        a = b;
        b = rest;
    }
    return a;
}

#endif
