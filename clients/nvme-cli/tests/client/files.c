// What a program finds under /dev and /sys, and that it finds everything else as before.
#define _GNU_SOURCE
#include "client.h"

#include <dirent.h>
#include <errno.h>
#include <fcntl.h>
#include <linux/fs.h>
#include <string.h>
#include <sys/ioctl.h>
#include <sys/stat.h>
#include <sys/sysmacros.h>
#include <sys/wait.h>
#include <unistd.h>

static void try_stats(void) {
    struct stat found;
    struct statx whole;
    CHECK_IS(stat("/dev/nvme0", &found), 0);
    CHECK(S_ISCHR(found.st_mode));
    CHECK_IS(lstat("/dev/nvme0n1", &found), 0);
    CHECK(S_ISBLK(found.st_mode));
    CHECK_IS(major(found.st_rdev), 259);
    CHECK_IS(stat("/dev/ng0n1", &found), 0);
    CHECK(S_ISCHR(found.st_mode));
    CHECK_FAILS(stat("/dev/nvme7", &found), ENOENT);
    CHECK_FAILS(stat("/dev/nvme0n3", &found), ENOENT);
    int fd = open_device("/dev/nvme0n1");
    CHECK_IS(fstat(fd, &found), 0);
    CHECK(S_ISBLK(found.st_mode));
    CHECK_IS(fstatat(fd, "", &found, AT_EMPTY_PATH), 0);
    CHECK(S_ISBLK(found.st_mode));
    CHECK_IS(fstatat(AT_FDCWD, "/dev/nvme1", &found, 0), 0);
    CHECK(S_ISCHR(found.st_mode));
    CHECK_IS(statx(AT_FDCWD, "/dev/nvme0n1", 0, STATX_BASIC_STATS, &whole), 0);
    CHECK(S_ISBLK(whole.stx_mode));
    CHECK_IS(statx(fd, "", AT_EMPTY_PATH, STATX_BASIC_STATS, &whole), 0);
    CHECK(S_ISBLK(whole.stx_mode));
    CHECK_IS(access("/dev/nvme0", R_OK | W_OK), 0);
    CHECK_FAILS(access("/dev/nvme9", F_OK), ENOENT);
    close(fd);
}

static void try_descriptors(void) {
    char byte;
    uint64_t bytes = 0;
    int size = 0;
    int fd = openat(AT_FDCWD, "/dev/nvme0n1", O_RDONLY | O_CLOEXEC);
    CHECK(fd >= 0);
    CHECK(fcntl(fd, F_GETFD) & FD_CLOEXEC);
    CHECK_IS(ioctl(fd, BLKGETSIZE64, &bytes), 0);
    CHECK_IS(bytes, 2048 * BLOCK);
    CHECK_IS(ioctl(fd, BLKSSZGET, &size), 0);
    CHECK_IS(size, 512);
    CHECK_FAILS(ioctl(fd, BLKDISCARD, &bytes), EOPNOTSUPP);
    // A controller and a generic device have control calls alone, and streams are refused when they are opened.
    int controller = open_device("/dev/nvme0"), generic = open_device("/dev/ng0n1");
    CHECK_FAILS((int)read(controller, &byte, 1), EBADF);
    CHECK_FAILS((int)write(generic, &byte, 1), EBADF);
    CHECK(!fopen("/dev/nvme0n1", "r") && errno == EOPNOTSUPP);
    close(controller);
    close(generic);
    int copy = dup(fd);
    close(fd);
    CHECK_IS(ioctl(copy, NVME_IOCTL_ID), 1);
    CHECK_IS(io(copy, FLUSH, 1, 0, 0, 0, NULL, 0), SUCCESS);
    pid_t child = fork();
    if (child == 0) {
        _exit(io(copy, FLUSH, 1, 0, 0, 0, NULL, 0) == SUCCESS ? 7 : 1);
    }
    int status;
    CHECK(waitpid(child, &status, 0) == child);
    CHECK_IS(WEXITSTATUS(status), 7);
    close(copy);
    CHECK_FAILS(ioctl(copy, NVME_IOCTL_ID), EBADF);
    CHECK_FAILS(open("/dev/nvme0n8", O_RDWR), ENOENT);
    CHECK_FAILS(open("/dev/nvme0", O_RDONLY | O_DIRECTORY), ENOTDIR);
}

static int is_controller(const struct dirent *entry) {
    return strncmp(entry->d_name, "nvme", 4) == 0;
}

static void try_sysfs(void) {
    char line[256] = "";
    struct dirent **found;
    FILE *file = fopen("/sys/class/nvme/nvme0/serial", "r");
    CHECK(file && fgets(line, sizeof line, file));
    CHECK(strcmp(line, "NVMESIM\n") == 0);
    fclose(file);
    CHECK_IS(scandir("/sys/class/nvme", &found, is_controller, alphasort), 2);
    CHECK(strcmp(found[0]->d_name, "nvme0") == 0 && strcmp(found[1]->d_name, "nvme1") == 0);
    int fd = open("/sys/class/nvme/nvme0/nvme0n1/size", O_RDONLY);
    CHECK(fd >= 0 && read(fd, line, sizeof line) == 5 && memcmp(line, "2048\n", 5) == 0);
    close(fd);
    DIR *folder = opendir("/sys/class/nvme-subsystem/nvme-subsys0");
    CHECK(folder);
    closedir(folder);
    CHECK_FAILS((int)readlink("/sys/class/nvme/nvme0", line, sizeof line), EINVAL);
    CHECK(!opendir("/sys/class/nvme/nvme5") && errno == ENOENT);
}

// The devices are among those of the machine.
static void try_listing(void) {
    DIR *folder = opendir("/dev");
    CHECK(folder);
    for (int round = 0; round < 2; round++) {
        int blocks = 0, others = 0;
        for (struct dirent *entry = readdir(folder); entry; entry = readdir(folder)) {
            blocks += strncmp(entry->d_name, "nvme", 4) == 0 && entry->d_type == DT_BLK;
            others += strcmp(entry->d_name, "null") == 0;
        }
        CHECK_IS(blocks, 3);
        CHECK_IS(others, 1);
        rewinddir(folder);
    }
    CHECK_IS(closedir(folder), 0);
}

// Files that are not the lab's.
void try_others(void) {
    char name[] = "other-XXXXXX";
    struct stat found;
    int fd = mkstemp(name);
    CHECK(fd >= 0);
    close(fd);
    unlink(name);
    umask(022);
    fd = open(name, O_CREAT | O_EXCL | O_RDWR, 0640);
    CHECK(fd >= 0);
    CHECK_IS(fstat(fd, &found), 0);
    CHECK_IS(found.st_mode, S_IFREG | 0640);
    CHECK_IS(write(fd, "abc", 3), 3);
    CHECK_FAILS(ioctl(fd, NVME_IOCTL_ID), ENOTTY);
    close(fd);
    CHECK_FAILS(open(name, O_CREAT | O_EXCL, 0600), EEXIST);
    CHECK_IS(stat(name, &found), 0);
    CHECK_IS(found.st_size, 3);
    FILE *file = fopen(name, "r");
    CHECK(file && fgetc(file) == 'a');
    fclose(file);
    unlink(name);
    CHECK_FAILS(stat(name, &found), ENOENT);
    CHECK_IS(stat("/dev/null", &found), 0);
    CHECK(S_ISCHR(found.st_mode) && major(found.st_rdev) == 1);
    CHECK_FAILS(stat("/dev/nvme-lab", &found), ENOENT);
    CHECK_IS(access("/bin/sh", X_OK), 0);
}

void try_files(void) {
    try_stats();
    try_descriptors();
    try_sysfs();
    try_listing();
}
