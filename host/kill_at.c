/* Runs a program, and kills it where it enters or leaves a system call.
 *
 *   kill_at STOP PROGRAM WORD..
 *
 * Every call has two stops, before it and after it, and they are counted from 1; with 0 none is met. Names on standard error
 * each write, fsync and rename that is begun, in order. Ends with the program's own status, with 137 where it killed it, and
 * with 125 where no program can be watched here.
 */
#define _GNU_SOURCE
#include <errno.h>
#include <signal.h>
#include <stdio.h>
#include <stdlib.h>
#include <string.h>
#include <sys/ptrace.h>
#include <sys/syscall.h>
#include <sys/wait.h>
#include <unistd.h>

enum { UNWATCHED = 125, BY_SIGNAL = 128 };

static void fail(const char *what)
{
    fprintf(stderr, "kill_at: %s: %s\n", what, strerror(errno));
    exit(UNWATCHED);
}

static const char *name_of(unsigned long long call)
{
    switch (call) {
    case SYS_write: case SYS_writev: case SYS_pwrite64: return "write";
    case SYS_fsync: case SYS_fdatasync: return "fsync";
#ifdef SYS_rename
    case SYS_rename:
#endif
#ifdef SYS_renameat
    case SYS_renameat:
#endif
    case SYS_renameat2: return "rename";
    default: return NULL;
    }
}

/* The last name of the file or folder that is open under a number. */
static const char *opened_as(pid_t program, int number, char *path, size_t room)
{
    if (number == STDOUT_FILENO)
        return "standard output";
    char link[64];
    snprintf(link, sizeof link, "/proc/%ld/fd/%d", (long)program, number);
    ssize_t length = readlink(link, path, room - 1);
    if (length < 0)
        return "nothing";
    path[length] = '\0';
    const char *slash = strrchr(path, '/');
    return slash == NULL ? path : slash + 1;
}

static void say_call(pid_t program)
{
    struct __ptrace_syscall_info at;
    if (ptrace(PTRACE_GET_SYSCALL_INFO, program, sizeof at, &at) < 0)
        fail("a system call cannot be looked at");
    const char *name = at.op == PTRACE_SYSCALL_INFO_ENTRY ? name_of(at.entry.nr) : NULL;
    if (name == NULL)
        return;
    char path[4096];
    if (strcmp(name, "rename") == 0)
        fprintf(stderr, "rename\n");
    else
        fprintf(stderr, "%s %s\n", name, opened_as(program, (int)at.entry.args[0], path, sizeof path));
}

static void run(char **words)
{
    if (ptrace(PTRACE_TRACEME, 0, NULL, NULL) != 0)
        fail("a program cannot be watched here");
    raise(SIGSTOP);
    execv(words[0], words);
    fail(words[0]);
}

/* Waits for the program to stop or to end; its status. */
static int wait_for(pid_t program)
{
    int status;
    if (waitpid(program, &status, 0) != program)
        fail("waiting");
    return status;
}

/* Lets the program go on from stop to stop, as far as the last; the status that it ends with. */
static int watch(pid_t program, unsigned long last)
{
    int status = wait_for(program);
    const long options = PTRACE_O_TRACESYSGOOD | PTRACE_O_EXITKILL;
    if (WIFSTOPPED(status) && ptrace(PTRACE_SETOPTIONS, program, NULL, options) != 0) {
        kill(program, SIGKILL);
        fail("a program cannot be watched here");
    }
    for (unsigned long stop = 0; WIFSTOPPED(status); status = wait_for(program)) {
        int signal = WSTOPSIG(status), passed_on = signal == SIGSTOP || signal == SIGTRAP ? 0 : signal;
        if (signal == (SIGTRAP | 0x80)) {
            passed_on = ++stop == last ? SIGKILL : 0;
            say_call(program);
        }
        if (passed_on == SIGKILL)
            kill(program, SIGKILL);
        else if (ptrace(PTRACE_SYSCALL, program, NULL, passed_on) != 0)
            fail("a program cannot be watched here");
    }
    return status;
}

int main(int count, char **words)
{
    if (count < 3) {
        fprintf(stderr, "usage: kill_at STOP PROGRAM WORD..\n");
        return UNWATCHED;
    }
    pid_t program = fork();
    if (program < 0)
        fail("fork");
    if (program == 0)
        run(words + 2);
    int status = watch(program, strtoul(words[1], NULL, 10));
    return WIFEXITED(status) ? WEXITSTATUS(status) : BY_SIGNAL + WTERMSIG(status);
}
