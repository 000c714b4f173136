/* Runs a program whose standard error is a terminal, and prints what that terminal shows: terminal PROGRAM; the status is the program's. */
#define _GNU_SOURCE
#include <fcntl.h>
#include <stdlib.h>
#include <sys/wait.h>
#include <unistd.h>

int main(int count, char **words) {
    int status;
    int master = posix_openpt(O_RDWR | O_NOCTTY);
    if (count != 2 || master < 0 || grantpt(master) || unlockpt(master)) return 9;
    const char *name = ptsname(master);
    pid_t program = fork();
    if (program == 0) {
        int terminal = open(name, O_RDWR | O_NOCTTY);
        if (terminal < 0) _exit(9);
        dup2(terminal, 2);
        execl(words[1], words[1], (char *)0);
        _exit(9);
    }
    char shown[4096];
    ssize_t came;
    /* reading fails once nobody holds the terminal any more */
    while ((came = read(master, shown, sizeof shown)) > 0)
        if (write(1, shown, (size_t)came) != came) return 9;
    if (waitpid(program, &status, 0) != program || !WIFEXITED(status)) return 9;
    return WEXITSTATUS(status);
}
