/* Opens a session of a system document, and answers the lines of the standard input.

       cc talk.c -o talk $(pkg-config --cflags --libs roman)
       ./talk SYSTEM [PART ..] <SESSION */
#include <roman.h>
#include <stdio.h>
#include <stdlib.h>
#include <string.h>

/* Adds a file to the shelf, under its path. Returns a status. */
static uint32_t add(roman_shelf *shelf, const char *path) {
    FILE *file = fopen(path, "rb");
    uint8_t *text = NULL;
    size_t length = 0, room = 0;
    uint32_t status;
    if (!file) return ROMAN_MISSING;
    do {
        if (length == room) {
            uint8_t *more = realloc(text, room += 65536);
            if (!more) break;
            text = more;
        }
        length += fread(text + length, 1, room - length, file);
    } while (!feof(file) && !ferror(file));
    status = feof(file) ? roman_add(shelf, (const uint8_t *)path, strlen(path), text, length) : ROMAN_MISSING;
    free(text);
    fclose(file);
    return status;
}

/* Writes the last reply in pieces of at most 4096 bytes. */
static void write_reply(roman_session *session) {
    uint8_t piece[4096];
    size_t from = 0, whole;
    while ((whole = roman_reply(session, from, piece, sizeof piece)) > from) {
        size_t length = whole - from < sizeof piece ? whole - from : sizeof piece;
        fwrite(piece, 1, length, stdout);
        from += length;
    }
}

int main(int count, char **words) {
    roman_shelf shelf = ROMAN_NONE;
    roman_session session = ROMAN_NONE;
    char line[4096];
    uint32_t status = count < 2 ? ROMAN_MISSING : ROMAN_OK;
    for (int i = 1; i < count && status == ROMAN_OK; i++) status = add(&shelf, words[i]);
    if (status == ROMAN_OK) {
        status = roman_open(&session, &shelf, (const uint8_t *)words[1], strlen(words[1]));
        write_reply(&session);
    }
    while (status != ROMAN_QUIT && status != ROMAN_MEMORY && fgets(line, sizeof line, stdin)) {
        uint32_t answer = roman_answer(&session, (const uint8_t *)line, strcspn(line, "\n"));
        if (answer == ROMAN_CLOSED) break;
        write_reply(&session);
        if (answer == ROMAN_QUIT || answer == ROMAN_MEMORY) status = answer;
    }
    roman_close(&session);
    roman_clear(&shelf);
    return status == ROMAN_QUIT ? 0 : (int)status;
}
