#define _GNU_SOURCE
#include "status.h"

#include "faults.h"
#include "files.h"
#include "report.h"

#include <errno.h>
#include <fcntl.h>
#include <signal.h>
#include <stdio.h>
#include <stdlib.h>
#include <string.h>
#include <sys/socket.h>
#include <sys/stat.h>
#include <sys/syscall.h>
#include <sys/un.h>
#include <sys/wait.h>
#include <unistd.h>

/* The most readers at once, the seconds that each has, and the connections that may wait. */
enum { READERS = 8, SECONDS = 20, WAITING = 8 };
static int readers;

/* Writes the address of a bridge's socket. Returns false if the name is too long. */
static bool name_socket(const char *run, const char *bridge, struct sockaddr_un *at) {
    *at = (struct sockaddr_un){.sun_family = AF_UNIX};
    return files_name(at->sun_path, sizeof at->sun_path, run, bridge, "status");
}

int status_listen(const char *run, const char *name) {
    struct sockaddr_un at;
    int listening = socket(AF_UNIX, SOCK_STREAM | SOCK_CLOEXEC | SOCK_NONBLOCK, 0);
    if (listening < 0 || !name_socket(run, name, &at))
        fail(STATUS_FAILED, name, "no socket for its status");
    unlink(at.sun_path);
    mode_t before = umask(0077);
    if (bind(listening, (struct sockaddr *)&at, sizeof at) < 0 || listen(listening, WAITING) < 0)
        fail(STATUS_FAILED, at.sun_path, strerror(errno));
    umask(before);
    return listening;
}

void status_open(struct querier *querier) {
    for (size_t at = 0; at < querier->bridges_count; at++)
        if (!querier->bridges[at].is_port)
            querier->bridges[at].listening = status_listen(querier->options->run, querier->bridges[at].name);
}

void status_reap(void) {
    while (readers > 0 && waitpid(-1, NULL, WNOHANG) > 0)
        readers--;
}

/* Serves a reader in the child process: reads the form, writes the status, and exits. */
static void serve(struct querier *querier, const struct bridge *bridge, int reader, uint64_t now) {
    static char room[1 << 16];
    char form = 't';
    sigset_t none;
    dup2(reader, STDIN_FILENO);
    syscall(__NR_close_range, STDERR_FILENO + 1, ~0U, 0); /* closes the querier's files */
    sigemptyset(&none);
    sigprocmask(SIG_SETMASK, &none, NULL);
    signal(SIGPIPE, SIG_DFL);
    alarm(SECONDS);
    ssize_t length = read(STDIN_FILENO, &form, 1);
    FILE *to = length == 1 ? fdopen(STDIN_FILENO, "w") : NULL;
    if (to != NULL) {
        setvbuf(to, room, _IOFBF, sizeof room);
        report(querier, bridge, form, now, to);
        fclose(to);
    }
    _exit(0);
}

void status_answer(struct querier *querier, int listening, const struct bridge *bridge, uint64_t now) {
    int reader = accept4(listening, NULL, NULL, SOCK_CLOEXEC);
    if (reader < 0)
        return;
    pid_t child = readers < READERS ? fork() : -1;
    if (child == 0)
        serve(querier, bridge, reader, now);
    if (child < 0)
        fault(FAULT_STATUS, "status", readers < READERS ? strerror(errno) : "too many readers of the status");
    else
        readers++;
    close(reader);
}

int status_print(int count, char **words) {
    static char bytes[1 << 16];
    struct sockaddr_un at;
    const char *run = "/run/mquerier-live", *bridge = NULL;
    char form = 't';
    for (int word = 1; word < count; word++) {
        if (strcmp(words[word], "--json") == 0)
            form = 'j';
        else if (strcmp(words[word], "--metrics") == 0)
            form = 'm';
        else if (strcmp(words[word], "--run") == 0 && word + 1 < count)
            run = words[++word];
        else if (words[word][0] == '-' || bridge != NULL)
            fail(STATUS_USAGE, words[word], "not an option of status (--help says more)");
        else
            bridge = words[word];
    }
    if (bridge == NULL || !name_socket(run, bridge, &at))
        fail(STATUS_USAGE, "status", "a bridge or an interface upstream is needed (--help says more)");
    int server = socket(AF_UNIX, SOCK_STREAM | SOCK_CLOEXEC, 0);
    if (server < 0 || connect(server, (struct sockaddr *)&at, sizeof at) < 0 || write(server, &form, 1) != 1)
        fail(STATUS_FAILED, at.sun_path, strerror(errno));
    ssize_t length;
    size_t all = 0;
    for (; (length = read(server, bytes, sizeof bytes)) > 0; all += (size_t)length)
        if (fwrite(bytes, 1, (size_t)length, stdout) != (size_t)length)
            fail(STATUS_FAILED, "standard output", strerror(errno));
    if (length < 0 || all == 0 || fflush(stdout) != 0)
        fail(STATUS_FAILED, at.sun_path, "it gave no answer");
    return 0;
}
