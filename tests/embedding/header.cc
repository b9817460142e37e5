/* The headers are ones of C++ too: every inline function, and links in the constants' memory. */
#include "mquerier-link.h"

static uint8_t memory[MQ_IGMP_SIZE(1, 1)], work[MQ_IGMP_WORKSPACE_SIZE(1, 1)];

static int either() {
  const uint8_t own[16] = {10, 0, 0, 9}, host[4] = {10, 0, 0, 1};
  const uint8_t report[8] = {0x16, 0, 0xf8, 0xfa, 239, 1, 2, 3};
  mq_config config = mq_config_defaults(false, own);
  config.groups = config.group_sources = config.sources = 1;
  mq_workspace workspace;
  mq_link link;
  mq_envelope envelope = {};
  mq_group group;
  mq_put_address(envelope.source, host, sizeof host);
  if (mq_workspace_init(config, work, sizeof work, nullptr, 0, &workspace) != MQ_DONE) return 7;
  if (mq_link_init(config, 0, memory, sizeof memory, &workspace, &link) != MQ_DONE) return 8;
  if (mq_link_receive(&link, &envelope, report, sizeof report, 0).applied != 1) return 9;
  if (mq_link_groups(&link, 0, &group, 1, nullptr, 0).groups != 1 || group.address[3] != 3) return 10;
  return mq_link_forwards(&link, group.address, own) ? 0 : 11;
}

int main() {
  const uint8_t own[4] = {10, 0, 0, 9};
  mq_igmp_config config = mq_igmp_defaults(own);
  config.groups = config.group_sources = config.sources = 1;
  mq_igmp link;
  mq_igmp_workspace workspace;
  mq_igmp_on_heap it;
  mq_counts counts;
  mq_query query;
  const uint8_t *at = nullptr;
  if (mq_igmp_init(config, 0, memory, sizeof memory, &link) != MQ_DONE) return 1;
  if (mq_igmp_workspace_init(config, work, sizeof work, &workspace) != MQ_DONE) return 2;
  if (mq_igmp_tick(&link, &workspace, 0, nullptr, 0).unsent != 1) return 3;
  mq_igmp_counts(&link, &counts, sizeof counts);
  if (counts.unsent != 1 || mq_igmp_next_query(&at, at, &query)) return 4;
  if (mq_igmp_new(config, 0, &it) != MQ_DONE) return 5;
  mq_igmp_free(&it);
  return mq_status_text(MQ_DONE)[0] == 'd' ? either() : 6;
}
