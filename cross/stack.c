/* Linked into Rust programs that the toolchain's emulator runs. A Rust program asks at its start where its stack is; the C library would read
   /proc/self/maps for it, and there this emulator (QEMU 8.2) ends. Rust goes on without the answer, but for its message about a full stack. */
#define _GNU_SOURCE
#include <errno.h>
#include <pthread.h>

int pthread_getattr_np(pthread_t thread, pthread_attr_t *attributes)
{
    (void)thread;
    (void)attributes;
    return ENOENT;
}
