/* A second count of instructions, without valgrind: a child makes each call of a file while its parent steps the processor one instruction at a time (Linux, aarch64 and x86-64).
   stepped FILE prints each call's instructions from the entry of the library's function to its return. Slow: some 10 microseconds an instruction. */
#define _GNU_SOURCE
#include "calls.h"
#include <signal.h>
#include <stdlib.h>
#include <sys/ptrace.h>
#include <sys/uio.h>
#include <sys/user.h>
#include <sys/wait.h>
#include <unistd.h>

#ifdef __aarch64__
typedef struct user_regs_struct registers;
static uint64_t place(registers r) { return r.pc; }
#else
typedef struct user_regs_struct registers;
static uint64_t place(registers r) { return r.rip; }
#endif

static uint64_t stands_at(pid_t child) {
    registers r;
    struct iovec v = {&r, sizeof r};
    if (ptrace(PTRACE_GETREGSET, child, (void *)1, &v)) exit(2);
    return place(r);
}

static int step(pid_t child) {
    int status;
    if (ptrace(PTRACE_SINGLESTEP, child, 0, 0)) exit(2);
    waitpid(child, &status, 0);
    return !WIFEXITED(status);
}

static int is_entry(uint64_t at) { return at == (uintptr_t)lichenoar_k || at == (uintptr_t)lichenoar_i || at == (uintptr_t)lichenoar_log_gamma; }

/* From the entry to the return: the caller's next instruction is at most 8 bytes after its call. */
static long counted(pid_t child) {
    uint64_t before = 0, at = stands_at(child);
    while (!is_entry(at)) {
        before = at;
        if (!step(child)) return -1;
        at = stands_at(child);
    }
    long steps = 0;
    do {
        if (!step(child)) return -1;
        steps++;
        at = stands_at(child);
    } while (at <= before || at > before + 8);
    return steps;
}

int main(int argc, char **argv) {
    FILE *f = argc == 2 ? fopen(argv[1], "r") : 0;
    struct call c;
    if (!f) return 2;
    while (read_call(f, &c)) {
        pid_t child = fork();
        if (child == 0) {
            ptrace(PTRACE_TRACEME, 0, 0, 0);
            raise(SIGSTOP);
            made(c);
            _exit(0);
        }
        waitpid(child, 0, 0);
        printf("%ld ", counted(child));
        write_call(c);
        fflush(stdout);
        kill(child, SIGKILL);
        waitpid(child, 0, 0);
    }
    return 0;
}
