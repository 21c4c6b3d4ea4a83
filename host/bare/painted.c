/* painted: how many bytes of stack each call touches on the bare machine, by a stack of its own that is painted before: a line a case, the
   bench's and chains of 64 routes. The figure is what the call uses below the stack pointer that it is called with, which a function in the
   library's place tells; newlib's memset and memcpy are in it. It is the second way to the figures of host/firmware/stack. */
#define main bench_main
#include "bench.c"
#undef main

static uint64_t area[2048];
uint32_t pointer_at_call;

__attribute__((naked)) static void mark(void) {
    __asm__("ldr r3, =pointer_at_call\n mov r2, sp\n str r2, [r3]\n movs r0, #0\n bx lr\n .ltorg");
}

#define MARK(member) (__typeof__(((struct face *)0)->member))mark
static const struct face marks = { MARK(book_read), MARK(book_write), MARK(class_of), MARK(dash), MARK(frame_read), MARK(frame_pack), MARK(spread), MARK(fault_sum), MARK(power_step), MARK(power_step_by), MARK(sleep_watch) };

/* The lowest address that the call touched. noipa: the compiler may not conclude that nobody reads `face` in here. */
__attribute__((noipa)) static uint32_t touched(uint32_t (*call)(uint32_t), uint32_t turn, uint32_t paint) {
    uint32_t *words = (uint32_t *)area, count = sizeof area / 4, i = 0;
    for (uint32_t at = 0; at < count; at++)
        words[at] = paint;
    register uint32_t r0 __asm__("r0") = turn;
    register void *r5 __asm__("r5") = area + sizeof area / sizeof *area;
    register uint32_t (*r6)(uint32_t) __asm__("r6") = call;
    __asm__ volatile("mov r4, sp\n mov sp, r5\n blx r6\n mov sp, r4"
                     : "+r"(r0), "+r"(r5), "+r"(r6)
                     :
                     : "r1", "r2", "r3", "r4", "r12", "lr", "cc", "memory");
    while (i < count && words[i] == paint)
        i++;
    return (uint32_t)(words + i);
}

static void say(const char *name, uint32_t (*call)(uint32_t), uint32_t turns) {
    uint32_t most = 0;
    for (uint32_t turn = 0; turn < turns; turn++) {
        uint32_t one, other;
        face = &marks;
        touched(call, turn, 0);
        face = &library;
        one = touched(call, turn, 0xA5C3965Au);
        other = touched(call, turn, 0x5A3C69A5u);
        if (other < one)
            one = other;
        if (one < pointer_at_call && pointer_at_call - one > most)
            most = pointer_at_call - one;
    }
    printf("%s\t%u\n", name, (unsigned)most);
}

/* 64 routes in one chain, in the order that step goes through them. */
static void chain(uint32_t step) {
    uint32_t line;
    text.length = 0;
    for (uint32_t i = 0; i < 64; i++) {
        uint32_t at = i * step % 64 + (step % 2 == 0 ? i * step / 64 : 0);
        text.length += (size_t)sprintf((char *)text.bytes + text.length, "R\t0\t%08X\t0\t%08X\n", (unsigned)at, (unsigned)(at + 1));
    }
    if (plain_book_read(text.bytes, text.length, book, &line) != 0)
        exit(3);
}

int main(void) {
    static const uint32_t steps[] = { 1, 2, 63, 37 };
    for (int i = 0; i < CASES; i++) {
        signal_count = 0;                 /* choose_message starts from it */
        cases[i].prepare();
        say(cases[i].name, cases[i].call, 64);
    }
    for (uint32_t i = 0; i < sizeof steps / sizeof *steps; i++) {
        char name[40];
        chain(steps[i]);
        sprintf(name, "book-read-chain-%u", (unsigned)steps[i]);
        say(name, call_book_read, 1);
        sprintf(name, "book-write-chain-%u", (unsigned)steps[i]);
        say(name, call_book_write, 1);
        sprintf(name, "spread-chain-%u", (unsigned)steps[i]);
        say(name, call_spread, 64);
    }
    return 0;
}
