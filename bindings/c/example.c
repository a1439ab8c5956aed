/* Prints the pages of a stream to P4 files: example STREAM FRONT. The first page becomes FRONT1.pbm, and so on. It is C and C++. */
#include <stdio.h>
#include <stdlib.h>
#include <string.h>

#include "rombixela.h"

static uint8_t *read_whole(const char *name, size_t *length)
{
    FILE *file = fopen(name, "rb");
    size_t room = 1 << 16;
    uint8_t *bytes = (uint8_t *)malloc(room);
    *length = 0;
    while (file != NULL && bytes != NULL) {
        size_t count = fread(bytes + *length, 1, room - *length, file);
        *length += count;
        if (count == 0) {
            fclose(file);
            return bytes;
        }
        if (*length == room) {
            uint8_t *more = (uint8_t *)realloc(bytes, room *= 2);
            if (more == NULL) {
                break;
            }
            bytes = more;
        }
    }
    if (file != NULL) {
        fclose(file);
    }
    free(bytes);
    return NULL;
}

/* How many bytes the P4 file has that begins here. */
static size_t file_length(const uint8_t *file)
{
    unsigned long width = 0, height = 0;
    int header = 0;
    sscanf((const char *)file, "P4\n%lu %lu\n%n", &width, &height, &header);
    return (size_t)header + (width + 7) / 8 * height;
}

static int write_page(const char *front, int number, const uint8_t *file, size_t length)
{
    char name[1024];
    FILE *page;
    size_t written;
    snprintf(name, sizeof name, "%s%d.pbm", front, number);
    page = fopen(name, "wb");
    if (page == NULL) {
        return 1;
    }
    written = fwrite(file, 1, length, page);
    return fclose(page) != 0 || written != length;
}

int main(int count, char **words)
{
    static const uint8_t settings[] = "RESOLUTION=300";
    uint8_t version[64];
    uint8_t nothing[1];
    uint8_t *stream, *pages;
    size_t length, at = 0;
    int number = 0, status = 0;
    RombixelaAnswer answer;

    if (count != 3 || (stream = read_whole(words[1], &length)) == NULL) {
        fprintf(stderr, "example STREAM FRONT\n");
        return 2;
    }
    answer = rombixela_version(version, sizeof version);
    printf("%.*s\n", (int)answer.put, (const char *)version);
    answer = rombixela_print(settings, strlen((const char *)settings), stream, length, nothing, 0);
    pages = (uint8_t *)malloc((size_t)answer.bytes + 1);
    if (pages == NULL) {
        free(stream);
        return 1;
    }
    answer = rombixela_print(settings, strlen((const char *)settings), stream, length, pages, (size_t)answer.bytes);
    pages[answer.put] = 0;
    while (at < answer.put && status == 0) {
        size_t whole = file_length(pages + at);
        status = write_page(words[2], ++number, pages + at, whole);
        at += whole;
    }
    if (answer.fault != ROMBIXELA_NO_FAULT) {
        fprintf(stderr, "fault %lu\n", (unsigned long)answer.fault);
        status = 1;
    }
    printf("%d pages\n", number);
    free(pages);
    free(stream);
    return status;
}
