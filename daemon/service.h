/* Messages of a service to systemd (sd_notify(3)). Without systemd they do nothing. */
#ifndef SERVICE_H
#define SERVICE_H

#include <stdint.h>

/* Sends a state, for example `READY=1`. */
void service_notify(const char *state);
/* Announces a reload, which `READY=1` ends. */
void service_reloading(void);
/* Returns the milliseconds between two messages to the watchdog, or 0 if there is no watchdog. */
uint64_t service_interval(void);

#endif
