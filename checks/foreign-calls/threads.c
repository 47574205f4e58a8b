/* Threads that render the same page at once, each many times; prints how many calls it made, and how many were wrong. */
#include <pthread.h>
#include <stdio.h>
#include <string.h>
#include <upon.h>

enum { THREADS = 8, RENDERINGS = 1000 };

static const uint8_t templates[] =
    "{\"page\": \"{% for row in rows %}{% include \\\"row\\\" with row %}{% endfor %}\", \"row\": \"{{ name }}: {{ price }}\\n\"}";
static const uint8_t context[] =
    "{\"rows\": [{\"name\": \"tea & milk\", \"price\": 3.50}, {\"name\": \"bread\", \"price\": 2},"
    " {\"name\": \"\\u00e9\", \"price\": -1}]}";
static const uint8_t options[] = "{\"html\": true}";
static const char wanted[] = "tea &amp; milk: 3.50\nbread: 2\n\xc3\xa9: -1\n";

/* Counts the renderings that are wrong. */
static void *render(void *count) {
    int turn;
    for (turn = 0; turn < RENDERINGS; turn++) {
        uint8_t out[100];
        size_t size = 0;
        uint8_t status = upon_render(templates, sizeof templates - 1, context, sizeof context - 1, (const uint8_t *)"page", 4,
                                     options, sizeof options - 1, out, sizeof out, &size);
        if (status != UPON_RENDERED || size != sizeof wanted - 1 || memcmp(out, wanted, size) != 0) ++*(int *)count;
    }
    return NULL;
}

int main(void) {
    pthread_t threads[THREADS];
    int wrong[THREADS] = {0}, all = 0, at;
    for (at = 0; at < THREADS; at++)
        if (pthread_create(&threads[at], NULL, render, &wrong[at]) != 0) return 3;
    for (at = 0; at < THREADS; at++) {
        if (pthread_join(threads[at], NULL) != 0) return 3;
        all += wrong[at];
    }
    printf("%d %d\n", THREADS * RENDERINGS, all);
    return 0;
}
