/* The C parts of programs on Linux, for machines whose C parts the kit has not: errors, the words of the command line, and a
 * lock on a part of a file. Their contracts stand in the kit, in rattle/os/src/c.rt. Programs are linked with --wrap=main. */
#define _GNU_SOURCE
#include <errno.h>
#include <fcntl.h>
#include <string.h>
#include <sys/types.h>
#include <unistd.h>
#if defined __x86_64__ && !defined __GLIBC__
#include <cpuid.h>
#include <sys/syscall.h>
#endif

int __real_main(int count, char **words);
int __wrap_main(int count, char **words);
int rattle_errno(void);
void rattle_set_errno(int error);
size_t rattle_arg_count(void);
ssize_t rattle_arg(size_t i, char *room, size_t size);
int rattle_lock_range(int file, short kind, off_t start, off_t size);

static size_t arg_count;
static char **args;

int __wrap_main(int count, char **words)
{
    arg_count = (size_t)count;
    args = words;
    return __real_main(count, words);
}

int rattle_errno(void)
{
    return errno;
}

void rattle_set_errno(int error)
{
    errno = error;
}

size_t rattle_arg_count(void)
{
    return arg_count;
}

/* Copies word i, and tells its length; -1 where there is none, -2 where it does not fit, and then the room is full. */
ssize_t rattle_arg(size_t i, char *room, size_t size)
{
    if (i >= arg_count)
        return -1;
    size_t length = strlen(args[i]);
    memcpy(room, args[i], length < size ? length : size);
    return length <= size ? (ssize_t)length : -2;
}

int rattle_lock_range(int file, short kind, off_t start, off_t size)
{
    struct flock range = { .l_type = kind, .l_whence = SEEK_SET, .l_start = start, .l_len = size };
    return fcntl(file, F_OFD_SETLK, &range);
}

#if defined __x86_64__ && !defined __GLIBC__
/* What musl lacks: two functions of glibc that a program's start calls, which instructions the processor has and write, and
 * statx of Linux. */
struct cpuid_feature {
    unsigned has[4], may_use[4]; /* eax, ebx, ecx, edx */
};
const struct cpuid_feature *__x86_get_cpuid_feature_leaf(unsigned leaf);
ssize_t __write(int file, const void *bytes, size_t size);
int statx(int folder, const char *path, int flags, unsigned mask, void *told);

const struct cpuid_feature *__x86_get_cpuid_feature_leaf(unsigned leaf)
{
    static struct cpuid_feature told;
    memset(&told, 0, sizeof told);
    if (leaf == 0 || leaf == 2)
        __get_cpuid(leaf == 0 ? 1 : 0x80000001, &told.has[0], &told.has[1], &told.has[2], &told.has[3]);
    memcpy(told.may_use, told.has, sizeof told.has);
    return &told;
}

ssize_t __write(int file, const void *bytes, size_t size)
{
    return write(file, bytes, size);
}

int statx(int folder, const char *path, int flags, unsigned mask, void *told)
{
    return (int)syscall(SYS_statx, folder, path, flags, mask, told);
}
#endif
