/* Checks a card on a thread with a stack of 256 KiB: by the check as it is, and by the same with 65,536 marks. A frame that is
   larger ends the program. Arguments: a card's file and the rule that must be told, again and again. */
#include <pthread.h>
#include <stdio.h>
#include <stdlib.h>

size_t bench_check(const unsigned char *card, size_t len);
size_t bench_check_wide(const unsigned char *card, size_t len);

enum { STACK = 256 * 1024 };

struct job {
    const unsigned char *card;
    size_t len, told, told_wide;
};

static void *work(void *given) {
    struct job *job = given;
    job->told = bench_check(job->card, job->len);
    job->told_wide = bench_check_wide(job->card, job->len);
    return NULL;
}

static unsigned char *load(const char *name, size_t *len) {
    FILE *file = fopen(name, "rb");
    long end;
    unsigned char *card;
    if (!file || fseek(file, 0, SEEK_END) || (end = ftell(file)) < 0 || fseek(file, 0, SEEK_SET)) {
        perror(name);
        exit(1);
    }
    *len = (size_t)end;
    card = malloc(*len + 1);
    if (!card || fread(card, 1, *len, file) != *len) {
        perror(name);
        exit(1);
    }
    fclose(file);
    return card;
}

int main(int argc, char **argv) {
    int i, wrong = 0;
    for (i = 1; i + 1 < argc; i += 2) {
        struct job job = {0};
        pthread_attr_t attr;
        pthread_t thread;
        size_t must = strtoul(argv[i + 1], NULL, 10);
        job.card = load(argv[i], &job.len);
        if (pthread_attr_init(&attr) || pthread_attr_setstacksize(&attr, STACK) ||
            pthread_create(&thread, &attr, work, &job) || pthread_join(thread, NULL)) {
            fprintf(stderr, "no thread with a stack of %d bytes\n", STACK);
            return 1;
        }
        printf("%s: rule %zu, with 65,536 marks %zu, must be %zu\n", argv[i], job.told, job.told_wide, must);
        wrong |= job.told != must || job.told_wide != must;
        free((void *)job.card);
    }
    return wrong;
}
