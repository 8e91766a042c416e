/*
 * call.c: the marks are functions that do nothing. The sides call them from
 * files of their own, so that no compiler leaves them out.
 *
 * The awkward case is what the marks cost by themselves, which is taken from
 * every measure: bench_nothing stands beside them, since in another file a
 * compiler adds an instruction between the two.
 */
#include "call.h"

struct bench_call bench_call;

__attribute__((noinline)) void bench_begin(void)
{
    __asm__ volatile("");
}

__attribute__((noinline)) void bench_end(void)
{
    __asm__ volatile("");
}

void bench_nothing(void)
{
    bench_begin();
    bench_end();
}
