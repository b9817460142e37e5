#define _GNU_SOURCE
#include "loop.h"

#include "advice.h"
#include "faults.h"
#include "ports.h"
#include "retune.h"
#include "route.h"
#include "service.h"
#include "setup.h"
#include "status.h"

#include <errno.h>
#include <signal.h>
#include <stdio.h>
#include <string.h>
#include <sys/epoll.h>
#include <sys/signalfd.h>
#include <sys/socket.h>
#include <sys/timerfd.h>
#include <time.h>
#include <unistd.h>

enum { READY = 16, EVERY = 1000 };

static int waiting, timer, signals;
static bool is_over, is_asked;

static void wait_for(int file) {
    struct epoll_event event = {.events = EPOLLIN, .data.fd = file};
    if (file < 0 || epoll_ctl(waiting, EPOLL_CTL_ADD, file, &event) < 0)
        fail(STATUS_FAILED, "epoll", strerror(errno));
}

void loop_open(struct querier *querier) {
    sigset_t handled;
    sigemptyset(&handled);
    static const int numbers[] = {SIGTERM, SIGINT, SIGHUP, SIGUSR1, SIGCHLD};
    for (size_t at = 0; at < sizeof numbers / sizeof *numbers; at++)
        sigaddset(&handled, numbers[at]);
    sigprocmask(SIG_BLOCK, &handled, NULL);
    signal(SIGPIPE, SIG_IGN);
    waiting = epoll_create1(EPOLL_CLOEXEC);
    signals = signalfd(-1, &handled, SFD_CLOEXEC | SFD_NONBLOCK);
    timer = timerfd_create(CLOCK_BOOTTIME, TFD_CLOEXEC | TFD_NONBLOCK);
    wait_for(signals);
    wait_for(timer);
    wait_for(querier->ring.packets);
    wait_for(querier->news);
    for (size_t at = 0; at < 2 && querier->route != NULL; at++)
        if (querier->route->tables[at].file >= 0)
            wait_for(querier->route->tables[at].file);
    if (querier->route != NULL)
        wait_for(querier->route->listening);
    for (size_t at = 0; at < querier->bridges_count; at++)
        if (!querier->bridges[at].is_port)
            wait_for(querier->bridges[at].listening);
}

/* Reads the options again. Those of memory and sockets stay. The links get their new configurations, and keep what they hold. */
static void reload(struct querier *querier, int count, char **words) {
    static struct options options;
    static struct tunings before;
    struct options *used = querier->options;
    const char *why = options_read(&options, count, words);
    if (why == NULL)
        why = querier_fault(&options);
    if (why == NULL)
        why = retune_fault(querier, &options);
    if (why == NULL && querier->route != NULL)
        why = route_reload(querier, &options, moment());
    if (why != NULL) {
        fault(FAULT_MISSING, "reload", why);
        return;
    }
    before = used->tunings;
    options_replace(used, &options);
    for (size_t at = 0; at < 2; at++)
        link_retime(&querier->families[at].configuration, &options.configuration[at]);
    retune(querier, &before);
    querier->is_stale = true; /* the Query Interval may have changed */
    ports_refresh(querier, moment());
    advice_routers(querier);
}

static void read_signals(struct querier *querier, int count, char **words) {
    struct signalfd_siginfo info;
    while (read(signals, &info, sizeof info) == sizeof info) {
        switch (info.ssi_signo) {
        case SIGCHLD: status_reap(); break;
        case SIGUSR1: is_asked = true; break;
        case SIGHUP:
            if (querier->options->is_interface)
                break;
            service_reloading();
            reload(querier, count, words);
            service_notify("READY=1");
            break;
        default: is_over = true;
        }
    }
}

/* Reads the ports again. If the state may be stale, it also checks the rules and repairs the databases. */
static void refresh(struct querier *querier) {
    bool was_stale = querier->is_stale;
    querier->is_stale = false;
    if (was_stale)
        setup_check(querier);
    ports_refresh(querier, moment());
    if (querier->options->is_interface && querier->bridges[0].index == 0)
        fail(STATUS_FAILED, querier->bridges[0].name, strerror(ENODEV));
    if (was_stale)
        querier_repair(querier, moment());
}

/* Handles one file that is ready. */
static void handle(struct querier *querier, int file, int count, char **words) {
    uint64_t expired;
    if (file == querier->ring.packets) {
        int error; /* reading the error clears it; the loop handles frames */
        socklen_t length = sizeof error;
        getsockopt(file, SOL_SOCKET, SO_ERROR, &error, &length);
    } else if (file == querier->news) {
        if (ports_read_news(querier))
            refresh(querier);
    } else if (file == signals) {
        read_signals(querier, count, words);
    } else if (file == timer) {
        if (read(timer, &expired, sizeof expired) < 0 && errno != EAGAIN)
            fail(STATUS_FAILED, "timer", strerror(errno));
    } else if (querier->route != NULL && file == querier->route->listening) {
        route_count(querier, moment());
        status_answer(querier, file, NULL, moment());
    } else if (!route_hear(querier, file, moment())) {
        for (size_t at = 0; at < querier->bridges_count; at++)
            if (querier->bridges[at].listening == file)
                status_answer(querier, file, &querier->bridges[at], moment());
    }
}

/* Sets the timer to the earliest deadline. */
static void set_timer(const struct querier *querier, uint64_t now) {
    static uint64_t set = MQ_NONE;
    uint64_t next = querier->deadlines.moments[deadlines_first(&querier->deadlines)], wait = next > now ? next - now : 0;
    if (next == set && next > now)
        return;
    set = next;
    struct itimerspec after = {.it_value = {(time_t)(wait / 1000), (long)(wait % 1000) * 1000000 + 1}};
    if (next == MQ_NONE)
        after.it_value = (struct timespec){0};
    if (timerfd_settime(timer, 0, &after, NULL) < 0)
        fail(STATUS_FAILED, "timer", strerror(errno));
}

/* Does the duties of each second: it refreshes stale state, and reports to the watchdog. */
static void look_around(struct querier *querier, uint64_t now) {
    static uint64_t next, next_word;
    uint64_t interval = service_interval();
    if (now < next)
        return;
    next = now + EVERY;
    if (querier->is_stale)
        refresh(querier);
    setup_gathered(querier, now);
    if (!querier->options->is_interface)
        ports_watch_topology(querier, now);
    if (interval != 0 && now >= next_word) {
        service_notify("WATCHDOG=1");
        next_word = now + (interval > EVERY ? interval - EVERY : 0);
    }
}

void loop_run(struct querier *querier, int count, char **words) {
    struct epoll_event ready[READY];
    while (!is_over) {
        uint64_t now = moment();
        querier_watch_clock(querier, now);
        if (querier_filters(querier) && ports_read_news(querier)) /* first, because they say whose VLAN a frame without a tag has */
            refresh(querier);
        querier_hear(querier, now); /* before ticks: a Report that is read late still counts */
        mdb_restore();              /* at once, because datagrams may be lost until then */
        querier_tick(querier, now);
        mdb_restore();
        look_around(querier, now);
        mdb_restore();
        if (is_asked && querier->options->is_interface) {
            querier_tick_all(querier, now);
            link_print_state(&querier->ports->served[!querier->options->serves[false]].link, now, stdout);
        }
        is_asked = false;
        if (fflush(stdout) != 0)
            fail(STATUS_FAILED, "standard output", strerror(errno));
        set_timer(querier, moment());
        int found = epoll_wait(waiting, ready, READY, -1);
        if (found < 0 && errno != EINTR)
            fail(STATUS_FAILED, "epoll", strerror(errno));
        for (int at = 0; at < found; at++)
            handle(querier, ready[at].data.fd, count, words);
    }
}
