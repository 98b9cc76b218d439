/* Each thread makes a word of the command line upper case, in the way of the manual page of
   pthread_create.
   Report: suspect are the members of `tinfo` and the texts, which main writes before it starts a
   thread, or reads after it has joined it: the rules ignore joins, and the elements of an array have
   one name, so what is written for a thread may be read by those before it. None has a race.
   thread_id is unshared, since no thread reads it. */
#include <ctype.h>
#include <errno.h>
#include <pthread.h>
#include <stdio.h>
#include <stdlib.h>
#include <string.h>

#define handle_error_en(en, msg) \
    do { errno = en; perror(msg); exit(EXIT_FAILURE); } while (0)

#define handle_error(msg) \
    do { perror(msg); exit(EXIT_FAILURE); } while (0)

struct thread_info {     /* Used as argument to thread_start() */
    pthread_t thread_id; /* ID returned by pthread_create() */
    int thread_num;      /* Application-defined thread # */
    char *argv_string;   /* From command-line argument */
    char *uargv;         /* Made by the thread */
};

/* Thread start function: display the argument, and make an upper-cased copy of it. */
static void *thread_start(void *arg)
{
    struct thread_info *tinfo = arg;
    char *uargv;

    printf("Thread %d: argv_string=%s\n", tinfo->thread_num, tinfo->argv_string);

    uargv = strdup(tinfo->argv_string);
    if (uargv == NULL)
        handle_error("strdup");

    for (char *p = uargv; *p != '\0'; p++)
        *p = toupper(*p);

    tinfo->uargv = uargv;
    return NULL;
}

int main(int argc, char *argv[])
{
    int s, num_threads = argc - 1;
    struct thread_info *tinfo;

    tinfo = calloc(num_threads, sizeof(*tinfo));
    if (tinfo == NULL)
        handle_error("calloc");

    for (int tnum = 0; tnum < num_threads; tnum++) {
        tinfo[tnum].thread_num = tnum + 1;
        tinfo[tnum].argv_string = argv[tnum + 1];

        s = pthread_create(&tinfo[tnum].thread_id, NULL, &thread_start, &tinfo[tnum]);
        if (s != 0)
            handle_error_en(s, "pthread_create");
    }

    for (int tnum = 0; tnum < num_threads; tnum++) {
        s = pthread_join(tinfo[tnum].thread_id, NULL);
        if (s != 0)
            handle_error_en(s, "pthread_join");

        printf("Joined with thread %d; it made %s\n", tinfo[tnum].thread_num, tinfo[tnum].uargv);
        free(tinfo[tnum].uargv);
    }

    free(tinfo);
    exit(EXIT_SUCCESS);
}
