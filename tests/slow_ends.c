/* Runs a program between two slow ends that do not block: its input comes in drops, and nobody reads its output at first.
   slow_ends PROGRAM <INPUT >OUTPUT; the status is the program's. */
#define _GNU_SOURCE
#include <fcntl.h>
#include <stdio.h>
#include <sys/wait.h>
#include <unistd.h>

enum { DROP = 4096, PAUSE = 500, FIRST = 200000 };

/* Moves all bytes from one end to the other, with a pause behind each drop. */
static int move(int from, int to) {
    char drop[DROP];
    ssize_t came;
    while ((came = read(from, drop, sizeof drop)) > 0) {
        for (ssize_t at = 0; at < came;) {
            ssize_t went = write(to, drop + at, (size_t)(came - at));
            if (went <= 0) return 1;
            at += went;
        }
        usleep(PAUSE);
    }
    return came < 0;
}

int main(int count, char **words) {
    int in[2], out[2], status;
    if (count != 2 || pipe2(in, O_CLOEXEC) || pipe2(out, O_CLOEXEC)) return 9;
    if (fcntl(in[0], F_SETFL, O_NONBLOCK) || fcntl(out[1], F_SETFL, O_NONBLOCK)) return 9;
    pid_t program = fork();
    if (program == 0) {
        dup2(in[0], 0);
        dup2(out[1], 1);
        execl(words[1], words[1], (char *)0);
        _exit(9);
    }
    close(in[0]);
    close(out[1]);
    pid_t feeder = fork();
    if (feeder == 0) {
        close(out[0]);
        _exit(move(0, in[1]));
    }
    close(in[1]);
    usleep(FIRST);
    int failed = move(out[0], 1);
    if (waitpid(feeder, &status, 0) != feeder || status != 0) failed = 1;
    if (waitpid(program, &status, 0) != program || !WIFEXITED(status)) return 9;
    return failed ? 9 : WEXITSTATUS(status);
}
