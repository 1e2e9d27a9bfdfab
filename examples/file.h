/* What the examples in C share: a file that is named on the command line is read, and lines are printed for its bytes. */
#include <errno.h>
#include <stdint.h>
#include <stdio.h>
#include <stdlib.h>
#include <string.h>

/* The bytes of a file; NULL, with errno set, if it can't be read. */
static uint8_t *contents(const char *name, size_t *length) {
    FILE *file = fopen(name, "rb");
    if (file == NULL)
        return NULL;
    uint8_t *bytes = NULL;
    *length = 0;
    for (size_t room = 1 << 17;; room *= 2) {
        uint8_t *more = realloc(bytes, room);
        if (more == NULL)
            break;
        bytes = more;
        *length += fread(bytes + *length, 1, room - *length, file);
        if (ferror(file))
            break;
        if (*length < room) {
            fclose(file);
            return bytes;
        }
    }
    int fault = errno;
    free(bytes);
    fclose(file);
    errno = fault;
    return NULL;
}

/* Prints the line of a refusal; the status of the program. */
static int refused(uint32_t number) {
    printf("refused %u\n", (unsigned)number);
    return 1;
}

/* Runs the program of this name with its words, where `lines` prints what there is to say of a file's bytes and gives the status. */
static int run(const char *program, int count, char **words, int (*lines)(const uint8_t *bytes, size_t length)) {
    if (count != 2) {
        fprintf(stderr, "usage: %s FILE.pgm\n", program);
        return 2;
    }
    size_t length;
    uint8_t *bytes = contents(words[1], &length);
    if (bytes == NULL) {
        fprintf(stderr, "%s: %s: %s\n", program, words[1], strerror(errno));
        return 2;
    }
    int status = lines(bytes, length);
    free(bytes);
    if (fflush(stdout) != 0) {
        fprintf(stderr, "%s: %s\n", program, strerror(errno));
        return 2;
    }
    return status;
}
