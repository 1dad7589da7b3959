/* A tally: the frames of each interface are counted, and those too short for an Ethernet header are dropped.
 *
 * map 1: array of 3, value 8 (the frames that came in, by ifindex)
 */
#include "xdp.h"

__attribute__((section("xdp"))) int tally(struct xdp_md *ctx)
{
    u8 *frame = (void *)(long)ctx->data;
    u8 *end = (void *)(long)ctx->data_end;
    u32 ifindex = ctx->ingress_ifindex;
    u64 *frames = map_lookup_elem(MAP(1), &ifindex);

    if (frames)
        __sync_fetch_and_add(frames, 1);
    if (frame + 14 > end)
        return XDP_DROP;
    return XDP_PASS;
}
