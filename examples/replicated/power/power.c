/* What would be on a disk after the power failed.
 *
 *     LD_PRELOAD=power.so POWER_FOLDER=/folder POWER_SHADOW=/shadow PROGRAM ..
 *
 * Whenever the program has synchronised a file below the folder, its bytes are copied to the shadow; whenever it has
 * synchronised a folder there, the list of its names is. What comes after that is lost with the power. power.py makes
 * the folder what the shadow says. A file is known by its inode and the time of its birth, as inodes are used again. */
#define _GNU_SOURCE
#include <dirent.h>
#include <dlfcn.h>
#include <errno.h>
#include <fcntl.h>
#include <limits.h>
#include <stdio.h>
#include <stdlib.h>
#include <string.h>
#include <sys/stat.h>
#include <unistd.h>

typedef int (*sync_call)(int);

static const char *below(const char *folder, const char *path) {
    size_t length = strlen(folder);
    if (strncmp(path, folder, length) != 0 || (path[length] != '/' && path[length] != '\0')) return NULL;
    return path[length] == '/' ? path + length + 1 : "";
}

/* The name of a file in the shadow: its inode, and when it was born. */
static int name_of(int at, const char *name, char *out, size_t size) {
    struct statx found;
    if (statx(at, name, AT_EMPTY_PATH | AT_SYMLINK_NOFOLLOW, STATX_BTIME | STATX_INO, &found) != 0) return -1;
    snprintf(out, size, "%llu-%lld-%u", (unsigned long long)found.stx_ino, (long long)found.stx_btime.tv_sec,
             found.stx_btime.tv_nsec);
    return 0;
}

static void copy(int from, FILE *to) {
    char block[1 << 16];
    off_t at = 0;
    for (ssize_t got; (got = pread(from, block, sizeof block, at)) > 0; at += got)
        fwrite(block, 1, (size_t)got, to);
}

static void list(const char *path, FILE *to) {
    DIR *folder = opendir(path);
    if (!folder) return;
    for (struct dirent *entry; (entry = readdir(folder));) {
        char name[64];
        if (entry->d_type == DT_REG && name_of(dirfd(folder), entry->d_name, name, sizeof name) == 0)
            fprintf(to, "%s %s\n", name, entry->d_name);
        if (entry->d_type == DT_DIR && entry->d_name[0] != '.') fprintf(to, "folder %s\n", entry->d_name);
    }
    closedir(folder);
}

/* Notes in the shadow what is on the disk now, of a file or a folder that was synchronised. */
static void note(int fd) {
    const char *folder = getenv("POWER_FOLDER"), *shadow = getenv("POWER_SHADOW");
    char link[64], path[PATH_MAX], name[PATH_MAX], part[PATH_MAX + 64], whole[PATH_MAX + 64];
    struct stat found;
    if (!folder || !shadow || fstat(fd, &found) != 0) return;
    snprintf(link, sizeof link, "/proc/self/fd/%d", fd);
    ssize_t length = readlink(link, path, sizeof path - 1);
    if (length < 0) return;
    path[length] = '\0';
    const char *rest = below(folder, path);
    if (!rest) return;
    if (S_ISDIR(found.st_mode)) {
        snprintf(name, sizeof name, "folder-%s", rest);
        for (char *each = name; *each; each++)
            if (*each == '/') *each = '+';
    } else if (name_of(fd, "", name, sizeof name) != 0) {
        return;
    }
    snprintf(whole, sizeof whole, "%s/%s", shadow, name);
    snprintf(part, sizeof part, "%s/.%d-%s", shadow, (int)getpid(), name);
    int readable = S_ISDIR(found.st_mode) ? -1 : open(path, O_RDONLY);
    FILE *to = fopen(part, "wb");
    if (!to) return;
    if (S_ISDIR(found.st_mode))
        list(path, to);
    else if (readable >= 0)
        copy(readable, to);
    if (readable >= 0) close(readable);
    fclose(to);
    rename(part, whole);
}

static int synchronise(const char *call, int fd) {
    int done = ((sync_call)dlsym(RTLD_NEXT, call))(fd);
    if (done == 0) {
        note(fd);
        errno = 0;
    }
    return done;
}

int fsync(int fd) { return synchronise("fsync", fd); }
int fdatasync(int fd) { return synchronise("fdatasync", fd); }
