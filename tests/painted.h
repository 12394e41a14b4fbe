/* How many bytes of stack a call writes. The stack below the call is painted, the call is made, and the lowest byte that is
 * no longer painted tells. What the caller lays down for the call counts: arguments by value, with what aligns them, and the
 * return address; the caller's own frame does not. Two colours, so that no byte written hides behind its colour.
 *
 * Compile with -O0 -mno-red-zone, so that the stack pointer stands at the end of the caller's frame whenever no call is under
 * way, and link with -static: the dynamic linker would write below the first call. */
#ifndef PAINTED_H
#define PAINTED_H

#include <stddef.h>

enum { PAINTED_ROOM = 65536 };

#define PAINTED(depth, call)                                                                                  \
    do {                                                                                                      \
        (depth) = 0;                                                                                          \
        for (int colour_ = 0x5a; colour_ <= 0xa5; colour_ += 0xa5 - 0x5a) {                                   \
            unsigned char *top_, *at_;                                                                        \
            size_t left_ = PAINTED_ROOM;                                                                      \
            __asm__ volatile("mov %%rsp, %0" : "=r"(top_));                                                   \
            at_ = top_ - PAINTED_ROOM;                                                                        \
            __asm__ volatile("rep stosb" : "+D"(at_), "+c"(left_) : "a"(colour_) : "memory");                 \
            call;                                                                                             \
            at_ = top_ - PAINTED_ROOM;                                                                        \
            left_ = PAINTED_ROOM;                                                                             \
            __asm__ volatile("repe scasb" : "+D"(at_), "+c"(left_) : "a"(colour_) : "memory", "cc");          \
            size_t written_ = (size_t)(top_ - at_) + 1; /* `at_` is one behind the first byte that differs */ \
            if ((depth) < written_)                                                                           \
                (depth) = written_;                                                                           \
        }                                                                                                     \
    } while (0)

#endif
