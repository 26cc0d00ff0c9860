// A ring buffer map that is pinned in a BPF file system.
#include <libgen.h>
#include <linux/magic.h>
#include <sys/vfs.h>

// Returns whether a file, or the folder that it would be in, belongs to a BPF file system.
static inline int is_in_bpf_file_system(const char *path) {
    struct statfs found;
    char folder[4096];
    if (statfs(path, &found) == 0) return found.f_type == BPF_FS_MAGIC;
    snprintf(folder, sizeof folder, "%s", path);
    return statfs(dirname(folder), &found) == 0 && found.f_type == BPF_FS_MAGIC;
}

// Returns whether a file descriptor is a map. Programs and links can be pinned too.
static inline int is_map(int file) {
    char link[64], target[64] = {0};
    snprintf(link, sizeof link, "/proc/self/fd/%d", file);
    return readlink(link, target, sizeof target - 1) > 0 && strcmp(target, "anon_inode:bpf-map") == 0;
}

// Returns the ring buffer map that is pinned at a path, with its size; otherwise reports the reason, and returns the negative exit status.
static inline int pinned_ring(const char *path, uint64_t *size) {
    union bpf_attr attr = {.pathname = (uintptr_t)path};
    int map = (int)bpf(BPF_OBJ_GET, &attr);
    if (map < 0) {
        if (errno == EPERM || errno == ENOSYS) return -refused_here();
        if (!is_in_bpf_file_system(path)) fprintf(stderr, "tape: %s is not in a BPF file system; `mount -t bpf bpf /sys/fs/bpf` mounts one\n", path);
        else if (errno == ENOENT) fprintf(stderr, "tape: nothing is pinned at %s\n", path);
        else fprintf(stderr, "tape: %s: %s\n", path, strerror(errno));
        return -1;
    }
    struct bpf_map_info info = {0};
    union bpf_attr asked = {.info = {.bpf_fd = (uint32_t)map, .info_len = sizeof info, .info = (uintptr_t)&info}};
    if (!is_map(map) || bpf(BPF_OBJ_GET_INFO_BY_FD, &asked) != 0 || info.type != BPF_MAP_TYPE_RINGBUF) {
        fprintf(stderr, "tape: what is pinned at %s is not a ring buffer map\n", path);
        return -1;
    }
    *size = info.max_entries;
    return map;
}
