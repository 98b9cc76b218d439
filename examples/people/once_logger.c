/* A logger that the first thread to log something initialises, by pthread_once.
   Report: the count of lines is guarded. `prefix`, its text and `started` are suspect: they are
   written in what pthread_once calls, where the lock of its control is held, and read under the
   logger's lock. That the call comes before the reads is beyond the rules. Written under the
   logger's lock, and tested there, they would be guarded. */
#include <pthread.h>
#include <stdio.h>
#include <stdlib.h>
#include <string.h>
#include <time.h>

static struct {
    pthread_mutex_t lock;
    char *prefix;
    time_t started;
    unsigned long lines;
} logger;

static pthread_once_t logger_once = PTHREAD_ONCE_INIT;

static void logger_init(void)
{
    const char *name = getenv("LOGGER_PREFIX");

    pthread_mutex_init(&logger.lock, NULL);
    logger.prefix = strdup(name != NULL ? name : "log");
    if (logger.prefix == NULL) {
        perror("strdup");
        exit(EXIT_FAILURE);
    }
    logger.started = time(NULL);
}

static void log_line(const char *text)
{
    pthread_once(&logger_once, logger_init);
    pthread_mutex_lock(&logger.lock);
    logger.lines++;
    fprintf(stderr, "%s[%ld] %lu: %s\n",
            logger.prefix, (long)(time(NULL) - logger.started), logger.lines, text);
    pthread_mutex_unlock(&logger.lock);
}

static void *work(void *arg)
{
    (void)arg;
    log_line("begin");
    log_line("end");
    return NULL;
}

int main(void)
{
    pthread_t a, b;

    if (pthread_create(&a, NULL, work, NULL) || pthread_create(&b, NULL, work, NULL)) {
        fputs("pthread_create failed\n", stderr);
        return EXIT_FAILURE;
    }
    pthread_join(a, NULL);
    pthread_join(b, NULL);
    return EXIT_SUCCESS;
}
