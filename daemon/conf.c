#define _GNU_SOURCE
#include "conf.h"

#include <errno.h>
#include <fcntl.h>
#include <stdio.h>
#include <string.h>
#include <unistd.h>

enum { GREATEST_FILE = 1 << 16, LONGEST_NAME = LONGEST_RUN + 280, LONGEST_FAULT = LONGEST_NAME + 240 };
static const char BLANKS[] = " \t\r";

/* Returns whether a word is an option for the command line alone. */
static bool is_elsewhere(const char *option) {
    static const char *const others[] = {"help", "version", "options", "run", "config", "mdb"};
    for (size_t at = 0; at < sizeof others / sizeof *others; at++)
        if (strcmp(option, others[at]) == 0)
            return true;
    return false;
}

/* Reads a line. Returns NULL, or the fault as text. */
static const char *read_line(struct options *options, char *line) {
    static char name[] = "conf", option[64];
    char *left = NULL, *word = strtok_r(line, BLANKS, &left), *value = strtok_r(NULL, BLANKS, &left);
    char *words[] = {name, option, value, NULL};
    size_t names = options->count;
    if (word == NULL)
        return NULL;
    const char *at = strncmp(word, "--", 2) == 0 ? word + 2 : word;
    if (is_elsewhere(at))
        return "this option is for the command line alone";
    if (strlen(at) + 3 > sizeof option || (value != NULL && strtok_r(NULL, BLANKS, &left) != NULL))
        return "a line has one option and its value";
    snprintf(option, sizeof option, "--%s", at);
    const char *why = options_read_words(options, value == NULL ? 2 : 3, words);
    return why == NULL && options->count != names ? "this option has no value" : why;
}

/* Reads the text of a file. Returns whether that succeeded; an absent file has no text. */
static bool read_text(const char *name, char text[GREATEST_FILE + 1]) {
    int file = open(name, O_RDONLY | O_CLOEXEC);
    if (file < 0) {
        *text = '\0';
        return errno == ENOENT;
    }
    ssize_t length = read(file, text, GREATEST_FILE + 1);
    close(file);
    if (length < 0 || length > GREATEST_FILE)
        return false;
    text[length] = '\0';
    return true;
}

const char *conf_read(struct options *options, const char *bridge) {
    static char text[GREATEST_FILE + 1], name[LONGEST_NAME], fault_of[LONGEST_FAULT];
    int number = 0;
    snprintf(name, sizeof name, "%s/%.255s.conf", options->config, bridge);
    if (!read_text(name, text)) {
        snprintf(fault_of, sizeof fault_of, "%s: it can't be read, or has more than %d bytes", name, GREATEST_FILE);
        return fault_of;
    }
    options_cut_comments(text);
    for (char *line = text, *next; line != NULL; line = next) {
        next = strchr(line, '\n');
        if (next != NULL)
            *next++ = '\0';
        number++;
        const char *why = read_line(options, line);
        if (why == NULL)
            continue;
        snprintf(fault_of, sizeof fault_of, "%s:%d: %.200s", name, number, why);
        return fault_of;
    }
    return NULL;
}
