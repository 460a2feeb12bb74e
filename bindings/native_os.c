/* What the toolchain's crate `os` has in C for x86-64, for a program that is compiled for another processor to be measured there (bindings/native.sh). */
#include <errno.h>
#include <fcntl.h>
#include <stddef.h>
#include <stdint.h>
#include <string.h>
#include <sys/types.h>

static int count;
static char **words;

__attribute__((constructor)) static void keep(int argc, char **argv) {
    count = argc;
    words = argv;
}

int32_t rattle_open_to_read(const char *path) { return open(path, O_RDONLY | O_CLOEXEC); }
int32_t rattle_open_new(const char *path, uint32_t mode) { return open(path, O_WRONLY | O_CREAT | O_EXCL | O_CLOEXEC, mode); }
int32_t rattle_open_to_overwrite(const char *path, uint32_t mode) { return open(path, O_WRONLY | O_CREAT | O_TRUNC | O_CLOEXEC, mode); }
int32_t rattle_open_to_append(const char *path) { return open(path, O_WRONLY | O_APPEND | O_CLOEXEC); }
int32_t rattle_open_to_update(const char *path) { return open(path, O_RDWR | O_CLOEXEC); }
int32_t rattle_errno(void) { return errno; }
void rattle_set_errno(int32_t error) { errno = error; }
size_t rattle_arg_count(void) { return (size_t)count; }

ssize_t rattle_arg(size_t i, char *buffer, size_t room) {
    if (i >= (size_t)count) return -1;
    size_t length = strlen(words[i]);
    memcpy(buffer, words[i], length < room ? length : room);
    return length <= room ? (ssize_t)length : -2;
}
