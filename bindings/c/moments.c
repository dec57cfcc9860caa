/*
 * Reads standard input as the program does, and prints each line's moment as a number of seconds since 1970, or the number of its
 * fault: the words of the command line are the program's.
 *
 *     moments TARGET ASSUMED LIMIT SOURCE...
 *
 * It reads the input line by line, and has one entry for each.
 */
#define _POSIX_C_SOURCE 200809L

#include <instants.h>

#include <inttypes.h>
#include <stdbool.h>
#include <stdio.h>
#include <stdlib.h>
#include <string.h>

enum { MOST = 4096 };

/* Joins the words, with a line feed between them. They are the caller's to free. */
static char *joined(char **words)
{
    size_t room = 1;
    for (char **word = words; *word; word++)
        room += strlen(*word) + 1;
    char *text = calloc(room, 1);
    for (char **word = words; text && *word; word++) {
        if (word != words)
            strcat(text, "\n");
        strcat(text, *word);
    }
    return text;
}

/* Prints a moment in seconds since 1970, rounded down, a colon and nanoseconds, or `! ` and the number of a fault. */
static void print(const struct instants_moment *moment)
{
    if (moment->fault)
        printf("! %" PRIu32 "\n", moment->fault);
    else
        printf("%" PRId64 ":%09" PRIu32 "\n", moment->seconds, moment->nanoseconds);
}

/* Prints the moment of each line of standard input by an open handle. */
static bool print_all(const void *at)
{
    char *line = NULL;
    size_t room = 0;
    ssize_t len;
    while ((len = getline(&line, &room, stdin)) > 0) {
        struct instants_moment moment;
        size_t written;
        /* (a line has an entry, its line feed with it) */
        if (instants_answer_moments(at, line, (size_t)len, &moment, 1, &written) != INSTANTS_OK || written != 1)
            break;
        print(&moment);
    }
    free(line);
    return !ferror(stdin) && feof(stdin) && !fflush(stdout);
}

/* Says what is refused of the words, on standard error. */
static void say(const char *words)
{
    char sentence[MOST];
    size_t len;
    instants_sentence(words, strlen(words), sentence, sizeof sentence, &len);
    fprintf(stderr, "%.*s\n", (int)(len < sizeof sentence ? len : sizeof sentence), sentence);
}

int main(int count, char **arguments)
{
    struct instants_handle handle = {0};
    char *words = joined(arguments + 1);
    uint8_t status = words ? instants_open(words, strlen(words), &handle) : INSTANTS_FAILED;
    (void)count;
    if (status == INSTANTS_OK) {
        status = print_all(handle.at) ? INSTANTS_OK : INSTANTS_FAILED;
        instants_close(handle.at);
    } else if (words) {
        say(words);
    }
    free(words);
    return status;
}
