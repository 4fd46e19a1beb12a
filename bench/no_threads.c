/* Refuses every thread, as a system does that has no more to give: for LD_PRELOAD. For each it appends a byte to the file
   that NO_THREADS names. */
#include <errno.h>
#include <fcntl.h>
#include <pthread.h>
#include <stdlib.h>
#include <unistd.h>

static const char *log_path;

/* Looked up once, so that a count of instructions has no more of this than of a refusal by the system. */
__attribute__((constructor)) static void find_log(void)
{
    log_path = getenv("NO_THREADS");
}

int pthread_create(pthread_t *thread, const pthread_attr_t *attributes, void *(*start)(void *), void *word)
{
    int file = log_path ? open(log_path, O_WRONLY | O_APPEND) : -1;
    (void)thread;
    (void)attributes;
    (void)start;
    (void)word;
    if (file >= 0) {
        if (write(file, ".", 1) != 1)
            abort();
        close(file);
    }
    return EAGAIN;
}
