/* For LD_PRELOAD: gives each thread that a process starts a processor of its own.
   PIN lists the processors, with commas. The threads take them in turn, as they are started. A round of a
   benchmark starts as many threads as the list has processors, and none of them ends before all have begun. */
#define _GNU_SOURCE
#include <dlfcn.h>
#include <pthread.h>
#include <sched.h>
#include <stdlib.h>
#include <string.h>

/* The processor of the thread of this number, counted from 0. A process without processors to pin to ends. */
static int processor_of(unsigned long thread)
{
    int processors[CPU_SETSIZE], count = 0;
    char *list = strdup(getenv("PIN"));

    for (char *each = strtok(list, ","); each != NULL && count < CPU_SETSIZE; each = strtok(NULL, ","))
        processors[count++] = atoi(each);
    free(list);
    if (count == 0)
        abort();
    return processors[thread % count];
}

int pthread_create(pthread_t *thread, const pthread_attr_t *attributes, void *(*run)(void *), void *argument)
{
    static unsigned long started;
    int (*next)(pthread_t *, const pthread_attr_t *, void *(*)(void *), void *) = dlsym(RTLD_NEXT, "pthread_create");
    int error = next(thread, attributes, run, argument);
    cpu_set_t own;

    if (error != 0)
        return error;
    CPU_ZERO(&own);
    CPU_SET(processor_of(started), &own);
    started += 1;
    if (pthread_setaffinity_np(*thread, sizeof own, &own) != 0)
        abort();
    return 0;
}
