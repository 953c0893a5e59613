/* For LD_PRELOAD: refuses one allocation of a process, the one whose number, counted from 1, stands in MEMORY, or one
   thread, by THREAD. It tells by a letter on descriptor TELL that it came to that. Each thread that was started ends
   late, and tells by another letter that it has ended: so who leaves before its threads have ended is seen. */
#define _GNU_SOURCE
#include <dlfcn.h>
#include <errno.h>
#include <pthread.h>
#include <stdlib.h>
#include <unistd.h>

struct job {
    void *(*run)(void *);
    void *argument;
};

static int tell(const char *letter)
{
    return write(atoi(getenv("TELL")), letter, 1) == 1;
}

static int is_refused(const char *call, unsigned long *met)
{
    const char *number = getenv(call);

    *met += 1;
    return number != NULL && strtoul(number, NULL, 10) == *met && tell("r");
}

static unsigned long allocations, threads;

void *malloc(size_t size)
{
    void *(*next)(size_t) = dlsym(RTLD_NEXT, "malloc");

    return is_refused("MEMORY", &allocations) ? NULL : next(size);
}

void *realloc(void *block, size_t size)
{
    void *(*next)(void *, size_t) = dlsym(RTLD_NEXT, "realloc");

    return is_refused("MEMORY", &allocations) ? NULL : next(block, size);
}

static void *run_late(void *given)
{
    struct job job = *(struct job *)given;
    void *answer = job.run(job.argument);

    free(given);
    usleep(20000);
    if (!tell("e"))
        abort();
    return answer;
}

int pthread_create(pthread_t *thread, const pthread_attr_t *attributes, void *(*run)(void *), void *argument)
{
    int (*next)(pthread_t *, const pthread_attr_t *, void *(*)(void *), void *) = dlsym(RTLD_NEXT, "pthread_create");
    struct job *job = malloc(sizeof *job);

    if (job == NULL || is_refused("THREAD", &threads)) {
        free(job);
        return EAGAIN;
    }
    *job = (struct job){run, argument};
    return next(thread, attributes, run_late, job);
}
