/* The least that a remote costs: it has the content of every key, stores nothing, and answers each request at once, with the tag
   that it came with. A host starts it without words, so the environment says more: with FLOOR_UNTAGGED it never says ASYNC, and
   with FLOOR_PROGRESS=N it says N lines `PROGRESS 1` before it answers a check. */
#include <stdio.h>
#include <stdlib.h>
#include <string.h>

enum { ROOM = 1 << 17 };

static char line[ROOM], out[1 << 16];

static int begins(const char *text, const char *start) { return strncmp(text, start, strlen(start)) == 0; }

/* The tag of the line, with its space, is cut off and copied; a line without one has an empty tag. */
static const char *take_tag(char *tag, size_t room) {
    tag[0] = '\0';
    if (!begins(line, "J ")) return line;
    const char *end = strchr(line + 2, ' ');
    if (end == NULL || (size_t)(end - line) + 2 > room) exit(1);
    size_t length = (size_t)(end - line) + 1;
    memcpy(tag, line, length);
    tag[length] = '\0';
    return end + 1;
}

static void answer(const char *tag, const char *message, int tagged) {
    if (begins(message, "EXTENSIONS")) puts(tagged && strstr(message, "ASYNC") ? "EXTENSIONS ASYNC" : "EXTENSIONS ");
    else if (strcmp(message, "PREPARE") == 0 || strcmp(message, "INITREMOTE") == 0) printf("%s%s-SUCCESS\n", tag, message);
    else if (begins(message, "CHECKPRESENT ")) printf("%sCHECKPRESENT-SUCCESS %s\n", tag, message + 13);
    else if (begins(message, "REMOVE ")) printf("%sREMOVE-SUCCESS %s\n", tag, message + 7);
    else if (begins(message, "TRANSFER ")) {
        const char *key = strchr(message + 9, ' ');
        const char *end = key == NULL ? NULL : strchr(key + 1, ' ');
        if (end == NULL) exit(1);
        printf("%sTRANSFER-SUCCESS %.*s\n", tag, (int)(end - (message + 9)), message + 9);
    } else printf("%sUNSUPPORTED-REQUEST\n", tag);
}

int main(void) {
    char tag[32];
    int tagged = getenv("FLOOR_UNTAGGED") == NULL;
    const char *lines = getenv("FLOOR_PROGRESS");
    long progress = lines == NULL ? 0 : atol(lines);
    setvbuf(stdout, out, _IOFBF, sizeof out);
    puts("VERSION 1");
    fflush(stdout);
    while (fgets(line, ROOM, stdin) != NULL) {
        line[strcspn(line, "\n")] = '\0';
        const char *message = take_tag(tag, sizeof tag);
        if (begins(message, "CHECKPRESENT "))
            for (long n = 0; n < progress; n++) printf("%sPROGRESS 1\n", tag);
        answer(tag, message, tagged);
        fflush(stdout);
    }
    return 0;
}
