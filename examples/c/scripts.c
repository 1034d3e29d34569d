/*
 * Runs each script that it is named, NAME.acc, as accrun does, and compares what it prints with NAME.out.
 */
#include "lamwiest.h"
#include <stdio.h>
#include <stdlib.h>
#include <string.h>

/* Ends the program, and says why. */
static _Noreturn void give_up(const char *name, const char *why)
{
    fprintf(stderr, "%s: %s\n", name, why);
    exit(EXIT_FAILURE);
}

/* Room for so many bytes, and one more. */
static char *room_for(size_t len, const char *name)
{
    char *room = malloc(len + 1);

    if (room == NULL) {
        give_up(name, "no memory");
    }
    return room;
}

/* A whole file, with a zero behind it. */
static char *read_file(const char *name, size_t *len)
{
    FILE *file = fopen(name, "rb");
    long size;
    char *text;

    if (file == NULL || fseek(file, 0, SEEK_END) != 0 || (size = ftell(file)) < 0) {
        give_up(name, "it can't be read");
    }
    rewind(file);
    *len = (size_t)size;
    text = room_for(*len, name);
    if (fread(text, 1, *len, file) != *len) {
        give_up(name, "it can't be read");
    }
    text[*len] = '\0';
    fclose(file);
    return text;
}

/* What a script prints. The first call is refused, and tells how long the text is. */
static char *printed_by(const char *name, const char *script, size_t length)
{
    char text[LW_FAULT_TEXT_SIZE], *printed;
    lw_fault fault;
    uint64_t len = 0;

    lw_script(NULL, script, length, NULL, 0, &len, &fault);
    printed = room_for(len, name);
    if (lw_script(NULL, script, length, printed, len + 1, &len, &fault) != LW_DONE) {
        give_up(name, lw_fault_text(&fault, text, sizeof text, NULL));
    }
    return printed;
}

/* The name of the file beside a script that has what it prints. */
static char *name_beside(const char *name)
{
    const size_t len = strlen(name);
    char *beside = room_for(len, name);

    if (len < 4 || strcmp(name + len - 4, ".acc") != 0) {
        give_up(name, "it is no NAME.acc");
    }
    memcpy(beside, name, len - 3);
    strcpy(beside + len - 3, "out");
    return beside;
}

int main(int count, char **names)
{
    for (int i = 1; i < count; i++) {
        size_t length, len;
        char *beside = name_beside(names[i]);
        char *script = read_file(names[i], &length);
        char *wanted = read_file(beside, &len);
        char *printed = printed_by(names[i], script, length);

        if (strcmp(printed, wanted) != 0) {
            give_up(names[i], "it prints something else");
        }
        free(beside);
        free(script);
        free(wanted);
        free(printed);
    }
    puts(count > 1 ? "each script prints what it has to" : "no script is named");
    return EXIT_SUCCESS;
}
