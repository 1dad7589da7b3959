/* A meter: the frames of each source address are counted, and those above the limit are dropped.
 *
 * map 1: hash, key 4 (the source address), value 8 (its frames)
 * map 2: array of 1, value 8 (how many frames an address may send)
 */
#include "xdp.h"

__attribute__((section("xdp"))) int meter(struct xdp_md *ctx)
{
    struct headers *frame = ipv4_of(ctx);
    u32 source, first = 0;
    u64 one = 1;
    u64 *frames, *limit;

    if (!frame)
        return XDP_PASS;
    source = address(frame->source);
    limit = map_lookup_elem(MAP(2), &first);
    if (!limit)
        return XDP_ABORTED;
    frames = map_lookup_elem(MAP(1), &source);
    if (!frames)
        return map_update_elem(MAP(1), &source, &one, BPF_NOEXIST) ? XDP_DROP : XDP_PASS;
    if (__sync_fetch_and_add(frames, 1) >= *limit)
        return XDP_DROP;
    return XDP_PASS;
}
