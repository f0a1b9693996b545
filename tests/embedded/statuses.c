/* Prints what calls return: of an engine that is closed, of rooms of all sizes, of bytes that are
   no request. */
#include "sulleqti.h"
#include <stdio.h>
#include <string.h>

static struct sulleqti engine = {0};
static uint8_t room[200] = {0};

/* Prints what answering some bytes returns, and the length. */
static void answer(const char *bytes, size_t length) {
    size_t size = 7;
    int status = sulleqti_answer(&engine, (const uint8_t *)bytes, length, &size);
    printf("answer %d %zu\n", status, size);
}

/* Prints what taking the reply returns, and what the room has then. */
static void take(size_t size) {
    memset(room, '.', sizeof room - 1);
    int status = sulleqti_take(&engine, room, size);
    printf("take %d %.130s\n", status, (const char *)room);
}

int main(void) {
    printf("protocol %llu\n", (unsigned long long)sulleqti_protocol());
    answer("{}", 2);
    take(130);
    sulleqti_close(&engine);
    printf("open %d\n", sulleqti_open(&engine, false));
    take(0);
    answer("\xff", 1);
    take(0);
    take(1);
    take(130);
    take(130);
    answer("", 0);
    answer("{}", 2);
    take(130);
    printf("open %d\n", sulleqti_open(&engine, true));
    take(130);
    sulleqti_close(&engine);
    sulleqti_close(&engine);
    take(130);
    return 0;
}
