/* touched: how much stack each call of the library writes to, from its return address down to the deepest byte, a line a call:
   call, bytes, how many of them were written below the stack pointer. It is the second way to the figures of host/stack: each
   call runs on a stack of its own, filled with one byte before, and what has another byte afterwards was written. The processor
   stops after each instruction, and what has changed below the stack pointer was written there. The inputs are such that the
   deepest code runs. touched N: pc_spread from the start of one chain of N routes, N from 1 to 64. */
#define _GNU_SOURCE
#include "punnetcrest.h"
#include <signal.h>
#include <stdio.h>
#include <stdlib.h>
#include <string.h>
#include <ucontext.h>

enum { STACK = 65536, RED_ZONE = 128 };
static uint8_t stack[STACK] __attribute__((aligned(64)));

/* Every call goes through `enter`, which notes where its return address lies. */
uint8_t *entry;
void (*target)(void);
void enter(void);
__asm__(".text\nenter: movq %rsp, entry(%rip)\n\tjmp *target(%rip)\n");
static void (*volatile through)(void) = enter;
#define ENTER(call, ...) (target = (void (*)(void))call, ((__typeof__(&call))through)(__VA_ARGS__))

/* After each instruction of a call. One that moves the stack pointer writes nothing below it. */
static size_t below;
static void after_a_step(int signal, siginfo_t *about, void *state) {
    static uint8_t copy[RED_ZONE];
    static const uint8_t *of;
    const uint8_t *zone = (const uint8_t *)((ucontext_t *)state)->uc_mcontext.gregs[REG_RSP] - RED_ZONE;
    int within = entry && zone + RED_ZONE <= entry;
    (void)signal, (void)about;
    for (size_t i = 0; within && zone == of && i < RED_ZONE - below; i++)
        if (zone[i] != copy[i])
            below = RED_ZONE - i;
    of = within ? zone : NULL;
    if (within)
        memcpy(copy, zone, RED_ZONE);
}

static void watch_steps(void) {
    static uint8_t room[65536];
    stack_t aside = { .ss_sp = room, .ss_size = sizeof room };
    struct sigaction action = { .sa_sigaction = after_a_step, .sa_flags = SA_SIGINFO | SA_ONSTACK };
    sigaltstack(&aside, NULL);
    sigaction(SIGTRAP, &action, NULL);
}

/* 0x100 is the flag by which the processor stops after each instruction. */
static void on_the_stack(void (*call)(void)) {
    __asm__ volatile("movq %%rsp, %%rbx\n\tmovq %0, %%rsp\n\tpushfq\n\torq $0x100, (%%rsp)\n\tpopfq\n\tcall *%1\n\t"
                     "pushfq\n\tandq $~0x100, (%%rsp)\n\tpopfq\n\tmovq %%rbx, %%rsp"
                     :
                     : "r"(stack + STACK), "r"(call)
                     : "rax", "rbx", "rcx", "rdx", "rsi", "rdi", "r8", "r9", "r10", "r11", "xmm0", "xmm1", "xmm2", "xmm3", "xmm4", "xmm5", "xmm6",
                       "xmm7", "xmm8", "xmm9", "xmm10", "xmm11", "xmm12", "xmm13", "xmm14", "xmm15", "cc", "memory");
}

/* The most of two fillings, since what is written may be the byte that was there. */
static size_t touched(void (*call)(void)) {
    size_t most = 0;
    below = 0;
    for (int filling = 0x5A; filling <= 0xA5; filling += 0xA5 - 0x5A) {
        size_t lowest = 0, bytes;
        memset(stack, filling, STACK);
        entry = NULL;
        on_the_stack(call);
        while (stack[lowest] == filling)
            lowest++;
        bytes = (size_t)(entry + 8 - (stack + lowest));
        most = bytes > most ? bytes : most;
    }
    return most;
}

/* ---- The calls. */

static char text[4096];
static uint32_t book[PC_BOOK_WORDS], line, refusal, class_code, values[4] = { 19999, 250, 5, 0 };
static uint32_t raws[PC_MOST_READINGS], places[PC_MOST_ROUTES], counts[27], sum[PC_FAULT_WORDS], power, last_wake, asleep;
static uint8_t written[PC_MOST_WRITTEN], frame[PC_FRAME_BYTES], classes[PC_MOST_READINGS];
static int64_t thousandths[PC_MOST_READINGS];
static double reading;
static uint32_t count;
/* From precharge to both: the step with the most tests. */
static const uint32_t seen[PC_POWER_WORDS] = { 2, 2, 2, 1, 0, 20000, 6000, 5900 };

static void call_book_read(void) {
    refusal = ENTER(pc_book_read, (const uint8_t *)text, strlen(text), book, &line);
}
static void call_book_write(void) {
    refusal = ENTER(pc_book_write, book, written, sizeof written, &count);
}
static void call_class(void) {
    refusal = ENTER(pc_class, 203, 1, &class_code, thousandths);
}
static void call_dash(void) {
    refusal = ENTER(pc_dash, 203, 1, &class_code, &reading);
}
static void call_fault_sum(void) {
    refusal = ENTER(pc_fault_sum, counts, 27, sum);
}
static void call_frame_pack(void) {
    refusal = ENTER(pc_frame_pack, book, 0x18FF21F3, values, 4, frame, sizeof frame);
}
static void call_frame_read(void) {
    refusal = ENTER(pc_frame_read, book, 0x18FF21F3, frame, sizeof frame, raws, PC_MOST_READINGS, classes, PC_MOST_READINGS, thousandths, PC_MOST_READINGS, &count);
}
static void call_power_step(void) {
    power = PC_POWER_PRECHARGE;
    refusal = ENTER(pc_power_step, &power, seen);
}
static void call_power_step_by(void) {
    power = PC_POWER_PRECHARGE;
    refusal = ENTER(pc_power_step_by, &power, seen, 95);
}
static void call_sleep_start(void) {
    refusal = ENTER(pc_sleep_start, &last_wake, &asleep, 0);
}
static void call_sleep_watch(void) {
    refusal = ENTER(pc_sleep_watch, &last_wake, &asleep, 10000, 0);
}
static void call_spread(void) {
    refusal = ENTER(pc_spread, book, 0, 0, places, PC_MOST_ROUTES, &count);
}

/* A message with a checksum, one more whose identifier is 251 above, so that the test of a book compares the two, and one chain of so many
   routes. */
static void make_text(int routes) {
    int length = sprintf(text, "M\t18FF21F3\nS\t203\t0\nS\t204\t16\nS\t504\t56\nS\t503\t60\nM\t18FF22EE\n");
    for (int i = 0; i < routes; i++)
        length += sprintf(text + length, "R\t0\t%08X\t0\t%08X\n", (unsigned)i, (unsigned)i + 1);
}

static void say(const char *call, size_t bytes) {
    printf("%s\t%u\t%u\n", call, (unsigned)bytes, (unsigned)below);
    if (refusal) {
        fprintf(stderr, "touched: %s was refused: %u\n", call, (unsigned)refusal);
        exit(1);
    }
}

int main(int argc, char **argv) {
    make_text(argc > 1 ? atoi(argv[1]) : 1);
    watch_steps();
    size_t by_book_read = touched(call_book_read);
    if (argc == 1) {
        say("pc_book_read", by_book_read);
        say("pc_book_write", touched(call_book_write));
        say("pc_class", touched(call_class));
        say("pc_dash", touched(call_dash));
        say("pc_fault_sum", touched(call_fault_sum));
        say("pc_frame_pack", touched(call_frame_pack));
        say("pc_frame_read", touched(call_frame_read));
        say("pc_power_step", touched(call_power_step));
        say("pc_power_step_by", touched(call_power_step_by));
        say("pc_sleep_start", touched(call_sleep_start));
        say("pc_sleep_watch", touched(call_sleep_watch));
    }
    say("pc_spread", touched(call_spread));
    return 0;
}
