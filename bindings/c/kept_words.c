/*
 * Answers a line by a handle whose words lie in memory that was taken for them. They are kept until the handle is closed, or with
 * the argument `free` changed and freed while it is open, which no program may do: tools/try_kept_words.py sees that this is
 * noticed.
 */
#include <instants.h>

#include <stdio.h>
#include <stdlib.h>
#include <string.h>

static const char said[] = "+00:00\n-\n100\nstrftime\nat %F %T %z", line[] = "at 2021-01-02 04:04:05 +0100";

int main(int count, char **arguments)
{
    struct instants_handle handle = {0};
    char output[INSTANTS_ROOM(0)];
    size_t written = 0, len = strlen(said);
    char *words = malloc(len);
    if (!words || instants_open(memcpy(words, said, len), len, &handle) != INSTANTS_OK)
        return 2;
    if (count > 1 && !strcmp(arguments[1], "free")) {
        memset(words, 'x', len);
        free(words);
        words = NULL;
    }
    instants_answer(handle.at, line, strlen(line), output, sizeof output, &written);
    instants_close(handle.at);
    free(words);
    return fwrite(output, 1, written, stdout) != 31;
}
