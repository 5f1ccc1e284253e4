/* Runs a command whose standard input is a terminal that gives the bytes of this program's standard input and then goes away:
 * terminal COMMAND.. <BYTES */
#define _GNU_SOURCE
#include <fcntl.h>
#include <stdlib.h>
#include <sys/ioctl.h>
#include <sys/wait.h>
#include <termios.h>
#include <time.h>
#include <unistd.h>

int main(int count, char **words) {
    struct timespec moment = {0, 10000000};
    struct termios plain;
    char bytes[1024];
    int master = posix_openpt(O_RDWR | O_NOCTTY), left = 0, status = 1;
    if (count < 2 || master < 0 || grantpt(master) || unlockpt(master))
        return 1;
    int terminal = open(ptsname(master), O_RDWR | O_NOCTTY);
    if (terminal < 0 || tcgetattr(terminal, &plain))
        return 1;
    cfmakeraw(&plain);
    if (tcsetattr(terminal, TCSANOW, &plain))
        return 1;
    ssize_t n = read(0, bytes, sizeof bytes);
    if (n < 0 || write(master, bytes, (size_t)n) != n)
        return 1;
    for (; left < n; nanosleep(&moment, NULL))
        if (ioctl(terminal, FIONREAD, &left))
            return 1;
    pid_t child = fork();
    if (child == 0) {
        close(master);
        if (dup2(terminal, 0) == 0)
            execvp(words[1], words + 1);
        _exit(127);
    }
    while (child > 0 && left > 0) {
        nanosleep(&moment, NULL);
        if (ioctl(terminal, FIONREAD, &left))
            return 1;
    }
    close(terminal);
    close(master);
    if (child < 0 || waitpid(child, &status, 0) != child)
        return 1;
    return WIFEXITED(status) ? WEXITSTATUS(status) : 1;
}
