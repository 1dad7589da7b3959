/* A packet filter: a frame whose source address stands on the deny list is dropped, and counted at its prefix.
 *
 * map 1: lpm_trie, key 8 (prefix length, address), value 8 (frames dropped)
 */
#include "xdp.h"

struct prefix {
    u32 length;
    u32 address;
};

__attribute__((section("xdp"))) int deny_list(struct xdp_md *ctx)
{
    struct headers *frame = ipv4_of(ctx);
    struct prefix key = {.length = 32};
    u64 *dropped;

    if (!frame)
        return XDP_PASS;
    key.address = address(frame->source);
    dropped = map_lookup_elem(MAP(1), &key);
    if (!dropped)
        return XDP_PASS;
    __sync_fetch_and_add(dropped, 1);
    return XDP_DROP;
}
