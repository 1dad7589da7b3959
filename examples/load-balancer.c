/* A load balancer: a client keeps the backend that it has, and a new client gets one by the last byte of its address.
 * Each backend's frames are counted.
 *
 * map 1: hash, key 4 (the client's address), value 4 (its backend's index)
 * map 2: array of 2, value 8 (frames of the backend)
 */
#include "xdp.h"

#define BACKENDS 2

__attribute__((section("xdp"))) int load_balancer(struct xdp_md *ctx)
{
    struct headers *frame = ipv4_of(ctx);
    u32 client, backend;
    u32 *known;
    u64 *frames;

    if (!frame)
        return XDP_PASS;
    client = address(frame->source);
    known = map_lookup_elem(MAP(1), &client);
    if (known) {
        backend = *known;
    } else {
        backend = frame->source[3] % BACKENDS;
        if (map_update_elem(MAP(1), &client, &backend, BPF_NOEXIST))
            return XDP_ABORTED;
    }
    frames = map_lookup_elem(MAP(2), &backend);
    if (!frames)
        return XDP_ABORTED;
    __sync_fetch_and_add(frames, 1);
    return XDP_TX;
}
