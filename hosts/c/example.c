/* Keeps a style and a work, and prints a cite and a line of the bibliography. */
#include "sulleqti.h"
#include <stdio.h>
#include <stdlib.h>
#include <string.h>

static struct sulleqti engine = {0};

/* Prints the reply to a request. */
static void ask(const char *request) {
    size_t length;
    int status = sulleqti_answer(&engine, (const uint8_t *)request, strlen(request), &length);
    uint8_t *reply = calloc(length + 1, 1);
    if (status != SULLEQTI_OK || !reply || sulleqti_take(&engine, reply, length) != SULLEQTI_OK) {
        fprintf(stderr, "out of memory\n");
        exit(1);
    }
    printf("%s\n", (const char *)reply);
    free(reply);
}

int main(void) {
    if (sulleqti_open(&engine, false) != SULLEQTI_OK)
        return 1;
    ask("{\"op\": \"style\", \"name\": \"short\", \"style\": {\"citation\": {\"children\": ["
        "{\"names\": {\"variable\": [\"author\"], \"children\": [{\"name\": {\"form\": \"short\"}}]}},"
        "{\"date\": {\"variable\": \"issued\", \"prefix\": \" \", \"date-part\": [{\"name\": \"year\"}]}}]},"
        "\"bibliography\": {\"children\": [{\"text\": {\"variable\": \"title\"}}]}}}");
    ask("{\"op\": \"works\", \"works\": [{\"name\": \"kwan\", \"work\": {\"variables\": {"
        "\"author\": [{\"family\": \"Kwan\", \"given\": \"Kevin\"}],"
        "\"title\": \"Crazy Rich Asians\", \"issued\": {\"year\": 2014}}}}]}");
    ask("{\"op\": \"cite\", \"style\": \"short\", \"cites\": [{\"work\": \"kwan\"}]}");
    ask("{\"op\": \"line\", \"style\": \"short\", \"lines\": [{\"work\": \"kwan\"}]}");
    sulleqti_close(&engine);
    return 0;
}
