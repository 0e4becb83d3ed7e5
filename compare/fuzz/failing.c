// How a run stops: with what went wrong, in which call, and how to repeat it.
#include "fuzz.h"

#include <signal.h>
#include <stdarg.h>
#include <stdio.h>
#include <stdlib.h>
#include <ucontext.h>
#include <unistd.h>

#ifdef __SANITIZE_ADDRESS__
#include <sanitizer/common_interface_defs.h>
#endif

struct now now;

static void tell_case(void)
{
    printf("  %s, call %u of the case: %s\n", now.call ? now.call : "after", now.calls, now.kind);
    if (now.call) {
        describe_buffers();
    }
    printf("  again: compare/fuzz/run --part %s --seed %llu --case %llu\n", now.part,
           (unsigned long long)now.seed, (unsigned long long)now.number);
    fflush(stdout);
}

void fail(const char *format, ...)
{
    va_list words;
    va_start(words, format);
    printf("fuzz: FAILED: ");
    vprintf(format, words);
    printf("\n");
    va_end(words);
    tell_case();
    exit(1);
}

// ---- faults

// The processor sets this bit of the error code where a page fault was a write.
static const char *deed(const ucontext_t *context)
{
    return context->uc_mcontext.gregs[REG_ERR] & 2 ? "wrote to" : "read";
}

static void on_fault(int signal, siginfo_t *info, void *context)
{
    char place[200];
    printf("fuzz: FAILED: ");
    if (signal == SIGALRM) {
        printf("the case does not end\n");
    } else if ((signal == SIGSEGV || signal == SIGBUS) &&
               describe_address(info->si_addr, place, sizeof place)) {
        printf("the library %s %s\n", deed(context), place);
    } else {
        printf("signal %d at address %p, which is in no lent buffer\n", signal, info->si_addr);
    }
    tell_case();
    _exit(1);
}

#ifdef __SANITIZE_ADDRESS__
// After a report of AddressSanitizer.
static void on_report(void)
{
    printf("fuzz: FAILED: AddressSanitizer reports it\n");
    tell_case();
}

// UBSan calls this by its name.
void __ubsan_on_report(void);
void __ubsan_on_report(void)
{
    printf("fuzz: FAILED: UBSan reports it\n");
    tell_case();
}
#endif

// The handler has a stack of its own: a fault may come from a stack that is full.
void failing_begin(void)
{
    static unsigned char stack_of_handler[1 << 16];
    static const int signals[] = {SIGSEGV, SIGBUS, SIGILL, SIGFPE, SIGALRM};
    stack_t stack = {.ss_sp = stack_of_handler, .ss_size = sizeof stack_of_handler};
    struct sigaction action = {.sa_sigaction = on_fault, .sa_flags = SA_SIGINFO | SA_ONSTACK};
    sigaltstack(&stack, NULL);
    for (size_t i = 0; i < sizeof signals / sizeof *signals; i++) {
        sigaction(signals[i], &action, NULL);
    }
#ifdef __SANITIZE_ADDRESS__
    __sanitizer_set_death_callback(on_report);
#endif
}
