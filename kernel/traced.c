// Calls by which a User Mode Linux kernel traces its processes.
//
// If somebody stops a guest (SIGSTOP) and lets it go on, the kernel would kill the process that it traces. So these stops are passed over here.
//
// A processor with AMX (-DAMX) has more registers than the kernel has room for. A process's registers are set only as a whole, so those that it doesn't
// have are taken from the process.
#define _GNU_SOURCE
#include <elf.h>
#include <errno.h>
#include <signal.h>
#include <stdarg.h>
#include <string.h>
#include <sys/ptrace.h>
#include <sys/syscall.h>
#include <sys/uio.h>
#include <sys/wait.h>
#include <unistd.h>

enum { PROCESSES = 1 << 22 }; // the most that a machine numbers

static unsigned char resumed[PROCESSES]; // the request by which each process goes on, 0 before the first one

#ifdef AMX
static unsigned char all[1 << 16];

static long registers(enum __ptrace_request request, pid_t pid, void *set, struct iovec *given) {
    struct iovec whole = {all, sizeof all};

    if (syscall(SYS_ptrace, PTRACE_GETREGSET, pid, set, &whole) < 0)
        return -1;
    size_t length = given->iov_len < whole.iov_len ? given->iov_len : whole.iov_len;
    if (request == PTRACE_SETREGSET) {
        memcpy(all, given->iov_base, length);
        return syscall(SYS_ptrace, PTRACE_SETREGSET, pid, set, &whole);
    }
    memcpy(given->iov_base, all, length);
    given->iov_len = length;
    return 0;
}
#endif

static int goes_on(enum __ptrace_request request) {
    return request == PTRACE_CONT || request == PTRACE_SYSCALL || request == PTRACE_SINGLESTEP || request == PTRACE_SYSEMU ||
           request == PTRACE_SYSEMU_SINGLESTEP;
}

long ptrace(enum __ptrace_request request, ...) {
    va_list list;
    va_start(list, request);
    pid_t pid = va_arg(list, pid_t);
    void *address = va_arg(list, void *), *data = va_arg(list, void *);
    long word = 0;
    va_end(list);
    if (goes_on(request) && pid > 0 && pid < PROCESSES)
        resumed[pid] = request;
#ifdef AMX
    if ((request == PTRACE_GETREGSET || request == PTRACE_SETREGSET) && address == (void *)NT_X86_XSTATE)
        return registers(request, pid, address, data);
#endif
    int peeks = request >= PTRACE_PEEKTEXT && request <= PTRACE_PEEKUSER;
    long result = syscall(SYS_ptrace, request, pid, address, peeks ? &word : data);
    if (peeks && result >= 0) {
        errno = 0;
        return word;
    }
    return result;
}

// Whether somebody stopped this process or let it go on, and not itself, as it does in its beginning: then it goes on, or will when it is let go on.
static int is_passed_over(pid_t pid) {
    siginfo_t signal;

    if (syscall(SYS_ptrace, PTRACE_GETSIGINFO, pid, NULL, &signal))
        return errno == ESRCH || !syscall(SYS_ptrace, PTRACE_CONT, pid, NULL, NULL);
    int request = pid < PROCESSES && resumed[pid] ? resumed[pid] : PTRACE_CONT;
    return signal.si_pid != pid && !syscall(SYS_ptrace, request, pid, NULL, NULL);
}

pid_t waitpid(pid_t pid, int *status, int options) {
    for (;;) {
        int how = 0;
        pid_t got = syscall(SYS_wait4, pid, &how, options, NULL);
        if (got > 0 && got < PROCESSES && (WIFEXITED(how) || WIFSIGNALED(how)))
            resumed[got] = 0;
        if (got > 0 && WIFSTOPPED(how) && (WSTOPSIG(how) == SIGSTOP || WSTOPSIG(how) == SIGCONT) && is_passed_over(got))
            continue;
        if (status)
            *status = how;
        return got;
    }
}
