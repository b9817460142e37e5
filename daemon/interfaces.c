#define _GNU_SOURCE
#include "interfaces.h"

#include <stdlib.h>
#include <string.h>

static const char *const names[VARIABLES] = {"rv=", "qi=", "qri=", "lmqi="};

/* Reads `NAME=NUMBER`. */
static const char *read_variable(const char *word, struct interface_words *it) {
    char *end;
    for (int at = 0; at < VARIABLES; at++) {
        size_t length = strlen(names[at]);
        if (strncmp(word, names[at], length) != 0)
            continue;
        unsigned long number = strtoul(word + length, &end, 10);
        if (word[length] < '0' || word[length] > '9' || *end != '\0' || number == 0 || number > UINT32_MAX)
            return "it is no number";
        it->variables[at] = (uint32_t)number;
        return NULL;
    }
    return "an interface has the variables rv, qi, qri and lmqi";
}

const char *interfaces_read(const char *words, struct interface_words *it) {
    static const char mark[] = "bridge:";
    char copy[128], *left = NULL;
    *it = (struct interface_words){.is_bridge = strncmp(words, mark, strlen(mark)) == 0};
    words += it->is_bridge ? strlen(mark) : 0;
    if (strlen(words) >= sizeof copy)
        return "too long";
    strcpy(copy, words);
    const char *name = strtok_r(copy, ",", &left), *why = NULL;
    if (name == NULL || *words == ',' || strlen(name) >= IF_NAMESIZE)
        return "no interface has this name";
    strcpy(it->name, name);
    for (const char *word; why == NULL && (word = strtok_r(NULL, ",", &left)) != NULL;)
        why = read_variable(word, it);
    return why;
}

void interfaces_configure(const struct interface_words *it, mq_config *configuration) {
    uint32_t *const places[VARIABLES] = {&configuration->robustness, &configuration->query_interval,
                                         &configuration->response_interval, &configuration->last_member_interval};
    for (int at = 0; at < VARIABLES; at++)
        if (it->variables[at] != 0)
            *places[at] = it->variables[at];
}
