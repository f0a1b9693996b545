/* Answers the lines of standard input by engines, and writes the replies, one a line.

   replies N: N threads at once, each with an engine of its own and the stack that the header asks
   for, answer all lines; the replies of one thread follow those of another. */
#include "sulleqti.h"
#include <pthread.h>
#include <stdio.h>
#include <stdlib.h>
#include <string.h>

enum { MOST_THREADS = 8, STACK = 1 << 19 };

/* What a thread reads and writes. */
struct part {
    const char *lines;
    size_t length;
    char *replies;
    size_t written;
    int status;
};

/* Adds the reply to a line. */
static int add_reply(struct sulleqti *engine, struct part *part, const char *line, size_t length) {
    size_t size;
    int status = sulleqti_answer(engine, (const uint8_t *)line, length, &size);
    if (status != SULLEQTI_OK)
        return status;
    char *replies = realloc(part->replies, part->written + size + 1);
    if (!replies)
        return SULLEQTI_OUT_OF_MEMORY;
    part->replies = replies;
    memset(replies + part->written, 0, size + 1);
    status = sulleqti_take(engine, (uint8_t *)replies + part->written, size);
    part->written += size;
    replies[part->written++] = '\n';
    return status;
}

/* Answers all lines by an engine. */
static void *answer(void *given) {
    struct part *part = given;
    struct sulleqti engine = {0};
    part->status = sulleqti_open(&engine, false);
    const char *line = part->lines, *end = part->lines + part->length;
    while (part->status == SULLEQTI_OK && line < end) {
        const char *feed = memchr(line, '\n', (size_t)(end - line));
        const char *stop = feed ? feed : end;
        part->status = add_reply(&engine, part, line, (size_t)(stop - line));
        line = stop + 1;
    }
    sulleqti_close(&engine);
    return NULL;
}

/* All of standard input. */
static char *whole_input(size_t *length) {
    char *text = NULL;
    size_t room = 0;
    for (*length = 0;;) {
        if (*length + 1 >= room && !(text = realloc(text, room = 2 * room + 65536)))
            exit(1);
        size_t more = fread(text + *length, 1, room - *length - 1, stdin);
        if (more == 0)
            return text;
        *length += more;
    }
}

int main(int count, char **words) {
    int threads = count > 1 ? atoi(words[1]) : 1, status = 0;
    pthread_t ids[MOST_THREADS];
    pthread_attr_t how;
    struct part parts[MOST_THREADS] = {0};
    size_t length;
    char *text = whole_input(&length);
    if (pthread_attr_init(&how) || pthread_attr_setstacksize(&how, STACK))
        return 1;
    for (int i = 0; i < threads && i < MOST_THREADS; i++) {
        parts[i].lines = text;
        parts[i].length = length;
        if (pthread_create(&ids[i], &how, answer, &parts[i]))
            return 1;
    }
    for (int i = 0; i < threads && i < MOST_THREADS; i++) {
        pthread_join(ids[i], NULL);
        fwrite(parts[i].replies, 1, parts[i].written, stdout);
        free(parts[i].replies);
        status = status ? status : parts[i].status;
    }
    free(text);
    return status;
}
