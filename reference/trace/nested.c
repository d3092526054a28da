/* How deep a product nests, as a trace probe sees it: products with every second factor of every field are made one machine
 * instruction at a time, and of each function the entries that are open at once are counted. A recurrence that calls itself is
 * measured beside it, so that the probe is known to see one. Prints the two greatest counts.
 *
 * x86-64 Linux: the trap flag raises SIGTRAP after each instruction.
 */
#define _GNU_SOURCE
#include <signal.h>
#include <stdint.h>
#include <stdio.h>
#include <string.h>
#include <ucontext.h>

#include "petsivola.h"

#define MOST_OPEN 64
#define TRAP_FLAG 0x100u

static struct {
    uintptr_t entry;  /* the function's first instruction */
    uintptr_t stack;  /* where its return address stands */
} open_calls[MOST_OPEN];
static unsigned open_count;
static unsigned most_nested;
static uintptr_t last_ip, last_sp;
static volatile sig_atomic_t stepping;

static uintptr_t word_at(uintptr_t place)
{
    uintptr_t word;
    memcpy(&word, (const void *)place, sizeof word);
    return word;
}

/* A call pushes the address behind itself; a return takes one away. */
static void follow(uintptr_t ip, uintptr_t sp)
{
    while (open_count > 0 && open_calls[open_count - 1].stack < sp)
        open_count--;
    if (sp == last_sp - sizeof(uintptr_t) && word_at(sp) - last_ip <= 8 && open_count < MOST_OPEN) {
        unsigned nested = 1;
        for (unsigned i = 0; i < open_count; i++)
            nested += open_calls[i].entry == ip;
        if (nested > most_nested)
            most_nested = nested;
        open_calls[open_count].entry = ip;
        open_calls[open_count].stack = sp;
        open_count++;
    }
    last_ip = ip;
    last_sp = sp;
}

static void on_trap(int signal, siginfo_t *info, void *context)
{
    ucontext_t *state = context;
    (void)signal;
    (void)info;
    if (stepping)
        follow((uintptr_t)state->uc_mcontext.gregs[REG_RIP], (uintptr_t)state->uc_mcontext.gregs[REG_RSP]);
    else
        state->uc_mcontext.gregs[REG_EFL] &= ~(greg_t)TRAP_FLAG;
}

static void start(void)
{
    open_count = most_nested = 0;
    last_ip = last_sp = 0;
    stepping = 1;
    __asm__ volatile("pushfq\n\torq $0x100, (%%rsp)\n\tpopfq" ::: "memory", "cc");
}

/* The handler takes the flag away at the next trap. */
static unsigned stop(void)
{
    stepping = 0;
    return most_nested;
}

/* Document 01's recurrence for p = 6, as a function that calls itself. */
static __attribute__((noinline)) unsigned recurrence(unsigned a, unsigned b)
{
    unsigned rest;
    if (b == 0)
        return 0;
    rest = recurrence(a & 32 ? a << 1 ^ 0x43 : a << 1, b >> 1);
    __asm__ volatile("" : "+r"(rest));
    return b & 1 ? a ^ rest : rest;
}

int main(void)
{
    struct sigaction action;
    unsigned loop = 0, recursive;
    volatile unsigned value;

    memset(&action, 0, sizeof action);
    action.sa_sigaction = on_trap;
    action.sa_flags = SA_SIGINFO;
    if (sigaction(SIGTRAP, &action, NULL) != 0)
        return 2;

    for (unsigned p = 2; p <= 6; p++) {
        const unsigned a = (1u << p) - 1;
        for (unsigned b = 0; b <= a; b++) {
            unsigned nested;
            start();
            value = petsivola_product((uint8_t)p, (uint8_t)a, (uint8_t)b);
            nested = stop();
            if (nested > loop)
                loop = nested;
        }
    }
    start();
    value = recurrence(63, 63);
    recursive = stop();
    (void)value;

    printf("product %u, recurrence that calls itself %u\n", loop, recursive);
    return 0;
}
