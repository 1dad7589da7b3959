/* What the examples share: the context of an XDP program, the helpers that bpfcon has, and maps by their ids. */
#ifndef XDP_H
#define XDP_H

typedef unsigned char u8;
typedef unsigned short u16;
typedef unsigned int u32;
typedef unsigned long long u64;

/* include/uapi/linux/bpf.h */
struct xdp_md {
    u32 data;
    u32 data_end;
    u32 data_meta;
    u32 ingress_ifindex;
    u32 rx_queue_index;
};

enum xdp_action { XDP_ABORTED, XDP_DROP, XDP_PASS, XDP_TX, XDP_REDIRECT };

enum { BPF_ANY, BPF_NOEXIST, BPF_EXIST };

/* bpf-helpers(7): the seven that bpfcon has. Keys and values lie on the stack or in the frame. */
static void *(*map_lookup_elem)(void *map, const void *key) = (void *)1;
static long (*map_update_elem)(void *map, const void *key, const void *value, u64 flags) = (void *)2;
static long (*map_delete_elem)(void *map, const void *key) = (void *)3;
static long (*tail_call)(void *ctx, void *prog_array, u32 index) = (void *)12;
static long (*map_push_elem)(void *map, const void *value, u64 flags) = (void *)87;
static long (*map_pop_elem)(void *map, void *value) = (void *)88;
static long (*map_peek_elem)(void *map, void *value) = (void *)89;

/* A map by its id: the 64-bit immediate of source 1, in which bpfcon has an id and the kernel a file descriptor. */
u64 pseudo(u64 source, u64 id) __asm__("llvm.bpf.pseudo");
#define MAP(id) ((void *)pseudo(1, (id)))

/* A number as it stands in a frame, the highest byte first, and back: numbers of a program have the lowest first. */
#define bpf_htons(number) ((u16)__builtin_bswap16(number))
#define bpf_ntohs(number) ((u16)__builtin_bswap16(number))
#define bpf_htonl(number) ((u32)__builtin_bswap32(number))
#define bpf_ntohl(number) ((u32)__builtin_bswap32(number))

/* An Ethernet header and the IPv4 header after it, 34 bytes (IEEE 802.3, RFC 791). */
struct headers {
    u8 to[6];
    u8 from[6];
    u8 type[2];
    u8 version;
    u8 service;
    u8 length[2];
    u8 id[2];
    u8 fragment[2];
    u8 time;
    u8 protocol;
    u8 checksum[2];
    u8 source[4];
    u8 target[4];
};

/* The headers of a frame that carries IPv4; none if it is too short or carries something else. */
static inline struct headers *ipv4_of(struct xdp_md *ctx)
{
    struct headers *frame = (void *)(long)ctx->data;
    void *end = (void *)(long)ctx->data_end;

    if ((void *)(frame + 1) > end)
        return 0;
    if (frame->type[0] != 0x08 || frame->type[1] != 0x00)
        return 0;
    return frame;
}

/* An Ethernet header and the IPv6 header after it, 54 bytes (IEEE 802.3, RFC 8200). */
struct ipv6_headers {
    u8 to[6];
    u8 from[6];
    u8 type[2];
    u8 version[4];
    u8 length[2];
    u8 next;
    u8 hops;
    u8 source[16];
    u8 target[16];
};

/* The headers of a frame that carries IPv6; none if it is too short or carries something else. */
static inline struct ipv6_headers *ipv6_of(struct xdp_md *ctx)
{
    struct ipv6_headers *frame = (void *)(long)ctx->data;
    void *end = (void *)(long)ctx->data_end;

    if ((void *)(frame + 1) > end)
        return 0;
    if (frame->type[0] != 0x86 || frame->type[1] != 0xdd)
        return 0;
    return frame;
}

/* A UDP header, 8 bytes (RFC 768): protocol 17. Its numbers have the highest byte first. */
struct udp {
    u16 source;
    u16 target;
    u16 length;
    u16 checksum;
};

/* A TCP header without its options, 20 bytes (RFC 9293): protocol 6. Its numbers have the highest byte first. The upper half
 * of `offset` is the header's length in words of four bytes; the flags are FIN 1, SYN 2, RST 4, PSH 8, ACK 16 and URG 32. */
struct tcp {
    u16 source;
    u16 target;
    u32 sequence;
    u32 acknowledgment;
    u8 offset;
    u8 flags;
    u16 window;
    u16 checksum;
    u16 urgent;
};

/* What lies after the IPv4 header and its options. Whether a whole UDP or TCP header is there is for the caller to test. */
static inline void *behind_ipv4(struct headers *frame)
{
    return (u8 *)frame + 14 + (frame->version & 15) * 4;
}

/* Four bytes of an address, as they stand in the frame. */
static inline u32 address(const u8 *bytes)
{
    return bytes[0] | bytes[1] << 8 | bytes[2] << 16 | (u32)bytes[3] << 24;
}

#endif
