/* The bytes of memory of a link and of a workspace: size igmp|mld GROUPS GROUP_SOURCES SOURCES. */
#include "mquerier.h"

#include <stdio.h>
#include <stdlib.h>
#include <string.h>

static uint32_t number(const char *text) {
    return (uint32_t)strtoul(text, NULL, 10);
}

int main(int count, char **words) {
    const uint8_t own4[4] = {10, 0, 0, 9}, own6[16] = {0xfe, 0x80, [15] = 9};
    mq_igmp_config igmp = mq_igmp_defaults(own4);
    mq_mld_config mld = mq_mld_defaults(own6);
    if (count != 5)
        return 2;
    igmp.groups = mld.groups = number(words[2]);
    igmp.group_sources = mld.group_sources = number(words[3]);
    igmp.sources = mld.sources = number(words[4]);
    if (strcmp(words[1], "mld") == 0)
        printf("%zu %zu\n", mq_mld_size(mld), mq_mld_workspace_size(mld));
    else
        printf("%zu %zu\n", mq_igmp_size(igmp), mq_igmp_workspace_size(igmp));
    return 0;
}
