/* Reads two texts without a C library, and prints a duration and an error. On a Cortex-M4 processor
 * it needs no operating system: it has its own table of vectors, and prints by semihosting, which
 * qemu or a debugger answers. On x86-64 Linux it prints by system calls. */
#include <duration_str.h>

/* ---- The functions that the library can need, except for a division, which libgcc has. Without
 * `volatile` a compiler may turn a loop into a call of the function that it is in. */

void *memcpy(void *to, const void *from, size_t length) {
    volatile unsigned char *target = to;
    const unsigned char *source = from;
    for (size_t at = 0; at < length; at++)
        target[at] = source[at];
    return to;
}

void *memset(void *to, int byte, size_t length) {
    volatile unsigned char *target = to;
    for (size_t at = 0; at < length; at++)
        target[at] = (unsigned char)byte;
    return to;
}

int memcmp(const void *first, const void *second, size_t length) {
    const unsigned char *left = first, *right = second;
    for (size_t at = 0; at < length; at++)
        if (left[at] != right[at])
            return left[at] - right[at];
    return 0;
}

int bcmp(const void *first, const void *second, size_t length) {
    return memcmp(first, second, length);
}

/* A panic of the library would end here. */
_Noreturn void abort(void) {
    for (;;)
        ;
}

#ifdef __arm__
/* On ARM the library calls functions of these names. `__aeabi_memset` takes its arguments in
 * another order than `memset`. */
void __aeabi_memcpy(void *to, const void *from, size_t length) { memcpy(to, from, length); }
void __aeabi_memcpy4(void *to, const void *from, size_t length) { memcpy(to, from, length); }
void __aeabi_memcpy8(void *to, const void *from, size_t length) { memcpy(to, from, length); }
void __aeabi_memset(void *to, size_t length, int byte) { memset(to, byte, length); }
void __aeabi_memclr4(void *to, size_t length) { memset(to, 0, length); }
void __aeabi_memclr8(void *to, size_t length) { memset(to, 0, length); }
#endif

/* ---- The machine */

void _start(void);

#ifdef __arm__
/* A Cortex-M4 begins with the stack and the code that this table names. */
__attribute__((section(".vectors"), used)) static const uintptr_t vectors[] = {
    0x20010000, (uintptr_t)_start};

static void semihosting(uint32_t operation, const void *argument) {
    register uint32_t first __asm__("r0") = operation;
    register const void *second __asm__("r1") = argument;
    __asm__ volatile("bkpt 0xab" : "+r"(first) : "r"(second) : "memory");
}

static void print(const char *text) { semihosting(0x04, text); }

static void end(void) { semihosting(0x18, (const void *)0x20026); }
#else
#define CHANGED "rcx", "r11", "memory"

static void system_call(long number, long first, const void *second, size_t third) {
    __asm__ volatile("syscall" : "+a"(number) : "D"(first), "S"(second), "d"(third) : CHANGED);
}

static void print(const char *text) {
    size_t length = 0;
    while (text[length] != '\0')
        length++;
    system_call(1, 1, text, length);
}

static void end(void) { system_call(60, 0, NULL, 0); }
#endif

/* ---- The program */

static void tell(const char *text, size_t length) {
    struct duration_str_answer answer;
    char line[DURATION_STR_ONE_LINE_BUFFER_SIZE];
    if (duration_str_one_line(text, length, 0, &answer, line) == 0)
        duration_str_format(answer.nanos, line);
    print(line);
    print("\n");
}

/* Linux aligns the stack in another way than a caller does. */
#ifdef __x86_64__
__attribute__((force_align_arg_pointer))
#endif
void _start(void) {
    static const char sum[] = "3m + 13s + 29ms", refused[] = "5 mins";
    tell(sum, sizeof sum - 1);
    tell(refused, sizeof refused - 1);
    end();
}
