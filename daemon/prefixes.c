#define _GNU_SOURCE
#include "prefixes.h"

#include <arpa/inet.h>
#include <stdlib.h>
#include <string.h>

/* Returns the number of an interface, which is added if it is new, or NO_UPSTREAM if there is no room. */
static size_t number_of(struct prefixes *it, const char *name) {
    for (size_t at = 0; at < it->names_count; at++)
        if (strcmp(it->names[at], name) == 0)
            return at;
    if (it->names_count == GREATEST_UPSTREAMS)
        return NO_UPSTREAM;
    strcpy(it->names[it->names_count], name);
    return it->names_count++;
}

/* Adds a prefix after those that are as long or longer. */
static const char *add(struct prefixes *it, struct prefix prefix) {
    size_t at = it->count;
    if (at == GREATEST_PREFIXES)
        return "too many prefixes";
    for (; at > 0 && it->all[at - 1].length < prefix.length; at--)
        it->all[at] = it->all[at - 1];
    it->all[at] = prefix;
    it->count++;
    return NULL;
}

/* Reads PREFIX/LENGTH. Returns whether it is one of multicast. */
static bool read_prefix(const char *text, struct prefix *prefix) {
    char address[INET6_ADDRSTRLEN], *end;
    const char *slash = strchr(text, '/');
    if (slash == NULL || (size_t)(slash - text) >= sizeof address || slash[1] < '0' || slash[1] > '9')
        return false;
    memcpy(address, text, (size_t)(slash - text));
    address[slash - text] = '\0';
    unsigned long length = strtoul(slash + 1, &end, 10);
    prefix->is_mld = strchr(address, ':') != NULL;
    prefix->length = (unsigned)length;
    if (*end != '\0' || length > (prefix->is_mld ? 128 : 32) || length < (prefix->is_mld ? 8 : 4))
        return false;
    if (inet_pton(prefix->is_mld ? AF_INET6 : AF_INET, address, prefix->group) != 1)
        return false;
    return prefix->is_mld ? prefix->group[0] == 0xff : prefix->group[0] >> 4 == 14;
}

/* Reads INTERFACE or INTERFACE=PREFIX/LENGTH. */
static const char *read_word(struct prefixes *it, char *word) {
    char *mark = strchr(word, '=');
    struct prefix prefix = {0};
    if (mark != NULL)
        *mark = '\0';
    if (*word == '\0' || strlen(word) >= IF_NAMESIZE)
        return "no interface has this name";
    if (mark != NULL && !read_prefix(mark + 1, &prefix))
        return "it is no prefix of groups, like 232.0.0.0/8";
    if ((prefix.upstream = number_of(it, word)) == NO_UPSTREAM)
        return "too many interfaces";
    if (mark != NULL)
        return add(it, prefix);
    const char *why = add(it, prefix); /* its length is 0: all groups */
    prefix.is_mld = true;
    return why == NULL ? add(it, prefix) : why;
}

const char *prefixes_read(struct prefixes *it, const char *words) {
    char copy[512], *left = NULL;
    const char *why = NULL;
    if (strlen(words) >= sizeof copy)
        return "too long";
    strcpy(copy, words);
    for (char *word = strtok_r(copy, ",", &left); word != NULL && why == NULL; word = strtok_r(NULL, ",", &left))
        why = read_word(it, word);
    return why;
}

static bool has_prefix(const uint8_t *group, const struct prefix *prefix) {
    unsigned bytes = prefix->length / 8, bits = prefix->length % 8;
    if (memcmp(group, prefix->group, bytes) != 0)
        return false;
    return bits == 0 || (group[bytes] ^ prefix->group[bytes]) >> (8 - bits) == 0;
}

size_t prefixes_find(const struct prefixes *it, bool is_mld, const uint8_t *group) {
    for (size_t at = 0; at < it->count; at++)
        if (it->all[at].is_mld == is_mld && has_prefix(group, &it->all[at]))
            return it->all[at].upstream;
    return NO_UPSTREAM;
}
