/* Loaded before the C library: a receive that would wait answers at once, so that a client that gives up after a million of them does so within a
   second. At the end of the program the file that HASTY_LOG names gets how many receives in a row before the end found nothing, and how many did in
   all. */
#include <errno.h>
#include <stdio.h>
#include <stdlib.h>
#include <sys/socket.h>
#include <sys/syscall.h>
#include <unistd.h>

static long in_a_row, in_all;

ssize_t recv(int fd, void *buffer, size_t size, int flags) {
    ssize_t came = recvfrom(fd, buffer, size, flags | MSG_DONTWAIT, NULL, NULL);
    if (came < 0 && errno == EAGAIN) {
        in_a_row++;
        in_all++;
    } else {
        in_a_row = 0;
    }
    return came;
}

void _exit(int status) {
    const char *path = getenv("HASTY_LOG");
    FILE *log = path ? fopen(path, "w") : NULL;
    if (log) {
        fprintf(log, "%ld %ld\n", in_a_row, in_all);
        fclose(log);
    }
    for (;;) syscall(SYS_exit_group, status);
}
