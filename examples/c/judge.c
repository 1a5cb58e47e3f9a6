/* Judges a script and the transcript behind it: of the file that is named, or of standard input. */
#include <nvmigrate.h>
#include <stdio.h>
#include <stdlib.h>

/* The bytes of a stream, and how many they are; NULL where they can't be read or there is no memory. */
static uint8_t *read_whole(FILE *from, size_t *size) {
    uint8_t *bytes = NULL;
    size_t room = 0;
    *size = 0;
    do {
        if (*size == room) {
            uint8_t *more = realloc(bytes, room = 2 * room + 65536);
            if (more == NULL)
                break;
            bytes = more;
        }
        *size += fread(bytes + *size, 1, room - *size, from);
    } while (!feof(from) && !ferror(from));
    if (feof(from))
        return bytes;
    free(bytes);
    return NULL;
}

static const char *why(uint32_t why) {
    return why == NVMIGRATE_WHY_FORM ? "form" : why == NVMIGRATE_WHY_RANGE ? "range" : "cut";
}

static int tell(uint32_t code, struct nvmigrate_wrong_line wrong) {
    switch (code) {
    case NVMIGRATE_OK:
        puts("yes");
        return 0;
    case NVMIGRATE_WRONG_FORM:
        printf("no %u form\n", wrong.line);
        return 1;
    case NVMIGRATE_WRONG_LEGAL:
        printf("no %u legal\n", wrong.line);
        return 1;
    case NVMIGRATE_WRONG_COMPLETE:
        printf("no %u complete\n", wrong.line);
        return 1;
    case NVMIGRATE_BAD_SCRIPT:
        printf("no script: line %u %s\n", wrong.line, why(wrong.why));
        return 2;
    default:
        fprintf(stderr, "judge: code %u\n", code);
        return 3;
    }
}

int main(int argc, char **argv) {
    FILE *from = argc > 1 ? fopen(argv[1], "rb") : stdin;
    size_t size;
    uint8_t *text = from != NULL ? read_whole(from, &size) : NULL;
    if (text == NULL) {
        fputs("judge: the transcript can't be read\n", stderr);
        return 3;
    }
    struct nvmigrate_wrong_line wrong = {0, 0};
    uint32_t code = nvmigrate_judge(text, size, &wrong);
    free(text);
    return tell(code, wrong);
}
