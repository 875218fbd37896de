#define _DEFAULT_SOURCE
#include <signal.h>
#include <string.h>
#include <sys/mman.h>
#include <sys/wait.h>
#include <unistd.h>
#include "small_stack.h"

/*
 * The guard has 16 pages and not one, so that a frame of several pages cannot reach
 * over it. A whole page lies above it; its first half is the stack.
 */
enum { STACK = 2048, GUARD = 65536, REST = 4096, UNTOUCHED = 0x5A };

/* How the program ends after a fault: in the guard, or anywhere else. */
enum { TOO_DEEP = 3, ELSEWHERE = 4 };

static unsigned char *bottom; /* the lowest byte of the stack; the guard ends here */
static unsigned char clean[64]; /* a piece of the stack that nothing has written */
static const char *volatile calling = "the runner";
static unsigned char for_the_handler[65536];

/*
 * Calls function(argument) with the stack pointer at `top`. The old one is kept in
 * %rbx, which every function gives back as it was. At the call the pointer is a
 * multiple of 16, as the ABI asks.
 */
uint32_t call_on(small *function, const void *argument, unsigned char *top);
__asm__(".text\n"
        ".type call_on, @function\n"
        "call_on:\n"
        "    push %rbx\n"
        "    mov %rsp, %rbx\n"
        "    mov %rdx, %rsp\n"
        "    mov %rdi, %rax\n"
        "    mov %rsi, %rdi\n"
        "    call *%rax\n"
        "    mov %rbx, %rsp\n"
        "    pop %rbx\n"
        "    ret\n"
        ".size call_on, . - call_on\n");

static void say(const char *text)
{
    if (write(STDERR_FILENO, text, strlen(text)) < 0)
        return;
}

static void on_fault(int number, siginfo_t *fault, void *context)
{
    uintptr_t at = (uintptr_t)fault->si_addr, end = (uintptr_t)bottom;
    int too_deep = end - GUARD <= at && at < end;

    (void)number;
    (void)context;
    say(too_deep ? "runner: the stack of 2,048 bytes was not enough in "
                 : "runner: a fault, not of the stack, in ");
    say(calling);
    say("\n");
    _exit(too_deep ? TOO_DEEP : ELSEWHERE);
}

/* The bytes from the bottom up to the lowest one that was written. */
static size_t untouched(void)
{
    size_t bytes = 0;

    /* Block by block first: this is done for every call. */
    while (bytes < STACK && memcmp(bottom + bytes, clean, sizeof clean) == 0)
        bytes += sizeof clean;
    while (bytes < STACK && bottom[bytes] == UNTOUCHED)
        bytes++;
    return bytes;
}

uint32_t call_on_small_stack(const char *name, small *function, const void *argument,
                             size_t *used)
{
    uint32_t result;

    memset(bottom, UNTOUCHED, STACK);
    calling = name;
    result = call_on(function, argument, bottom + STACK);
    calling = "the runner";
    *used = STACK - untouched();
    return result;
}

/* Needs a little more than this many bytes of stack, and writes them all. */
static uint32_t touch(const void *bytes)
{
    size_t size = *(const size_t *)bytes;
    volatile unsigned char room[size];

    for (size_t at = 0; at < size; at++)
        room[at] = 1;
    return room[size - 1];
}

/* How a child process ends that calls `touch`: 0 where the call returns and the measure is right. */
static int end_of_touch(size_t bytes)
{
    int status;
    pid_t child = fork();

    if (child == 0) {
        size_t used;

        close(STDERR_FILENO);
        call_on_small_stack("touch", touch, &bytes, &used);
        _exit(bytes <= used && used <= bytes + 128 ? 0 : 1);
    }
    if (child < 0 || waitpid(child, &status, 0) != child || !WIFEXITED(status))
        return -1;
    return WEXITSTATUS(status);
}

const char *make_small_stack(void)
{
    stack_t handlers = {.ss_sp = for_the_handler, .ss_size = sizeof for_the_handler};
    struct sigaction action = {.sa_sigaction = on_fault, .sa_flags = SA_SIGINFO | SA_ONSTACK};
    unsigned char *guard = mmap(NULL, GUARD + REST, PROT_READ | PROT_WRITE,
                                MAP_PRIVATE | MAP_ANONYMOUS, -1, 0);

    if (guard == MAP_FAILED || mprotect(guard, GUARD, PROT_NONE) != 0)
        return "no memory for the small stack";
    bottom = guard + GUARD;
    memset(clean, UNTOUCHED, sizeof clean);
    /* The handler has a stack of its own: on the small one there is no room left. */
    if (sigaltstack(&handlers, NULL) != 0 || sigaction(SIGSEGV, &action, NULL) != 0)
        return "cannot catch faults";
    if (end_of_touch(1500) != 0)
        return "the small stack does not hold 1,500 bytes, or they are not measured";
    if (end_of_touch(2100) != TOO_DEEP)
        return "2,100 bytes do not meet the guard of the small stack";
    if (end_of_touch(4096) != TOO_DEEP)
        return "a copy of 4,096 bytes does not meet the guard of the small stack";
    return NULL;
}
