// Makes a map of the kernel's and writes a value under each key by bpf(2), by id as bpftool does, and then reads each entry
// as `bpftool map dump` does, if that is asked: what the system calls alone cost.
#include <linux/bpf.h>
#include <stdio.h>
#include <stdlib.h>
#include <string.h>
#include <sys/syscall.h>
#include <unistd.h>

static long bpf(int command, union bpf_attr *attr) {
    return syscall(SYS_bpf, command, attr, sizeof *attr);
}

static int made(unsigned type, unsigned entries) {
    union bpf_attr attr;
    memset(&attr, 0, sizeof attr);
    attr.map_type = type;
    attr.key_size = 4;
    attr.value_size = 8;
    attr.max_entries = entries;
    return bpf(BPF_MAP_CREATE, &attr);
}

static unsigned id_of(int map) {
    struct bpf_map_info info;
    union bpf_attr attr;
    memset(&info, 0, sizeof info);
    memset(&attr, 0, sizeof attr);
    attr.info.bpf_fd = map;
    attr.info.info_len = sizeof info;
    attr.info.info = (unsigned long) &info;
    return bpf(BPF_OBJ_GET_INFO_BY_FD, &attr) < 0 ? 0 : info.id;
}

static int updated(unsigned id, unsigned key) {
    union bpf_attr attr;
    memset(&attr, 0, sizeof attr);
    attr.map_id = id;
    int map = bpf(BPF_MAP_GET_FD_BY_ID, &attr);
    unsigned long long value = key;
    memset(&attr, 0, sizeof attr);
    attr.map_fd = map;
    attr.key = (unsigned long) &key;
    attr.value = (unsigned long) &value;
    int status = map < 0 || bpf(BPF_MAP_UPDATE_ELEM, &attr) < 0;
    close(map);
    return status;
}

static unsigned dumped(int map) {
    unsigned key = 0, next = 0, found = 0;
    unsigned long long value = 0;
    union bpf_attr attr;
    memset(&attr, 0, sizeof attr);
    attr.map_fd = map;
    attr.next_key = (unsigned long) &next;
    while (bpf(BPF_MAP_GET_NEXT_KEY, &attr) == 0) {
        key = next;
        memset(&attr, 0, sizeof attr);
        attr.map_fd = map;
        attr.key = (unsigned long) &key;
        attr.value = (unsigned long) &value;
        found += bpf(BPF_MAP_LOOKUP_ELEM, &attr) == 0;
        attr.next_key = (unsigned long) &next;
    }
    return found;
}

int main(int count, char **words) {
    if (count < 3 || count > 4) {
        fprintf(stderr, "usage: updates array|hash COUNT [dump]\n");
        return 2;
    }
    unsigned entries = atoi(words[2]);
    int map = made(strcmp(words[1], "hash") ? BPF_MAP_TYPE_ARRAY : BPF_MAP_TYPE_HASH, entries);
    unsigned id = map < 0 ? 0 : id_of(map);
    for (unsigned key = 0; key < entries; key++) {
        if (id == 0 || updated(id, key)) {
            perror("bpf");
            return 1;
        }
    }
    if (count == 4)
        printf("found %u elements\n", dumped(map));
    return 0;
}
