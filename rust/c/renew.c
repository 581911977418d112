/* Turns joint files of the old kind, end to end on standard input, into files of the new kind on standard output, by the proved calls.
 * Where a file can't be read, or there is more input than a sheet takes, that is told on standard error, the exit status is 1 and
 * nothing is written. */
#include "jinqewan.h"
#include <inttypes.h>
#include <stdio.h>

/* A file gains the two bytes of 15000, and has 29 or more before. */
enum { LONGEST_OUTPUT = JINQEWAN_LONGEST_INPUT + JINQEWAN_LONGEST_INPUT / 29 * 2 };

static uint8_t input[JINQEWAN_LONGEST_INPUT + 1];
static uint8_t output[LONGEST_OUTPUT];

/* Puts the new files into `output` and their length into `size`. Answers 0, or the refusal of the last joint that `joint` counts. */
static uint32_t renew(size_t length, size_t *size, unsigned *joint)
{
    uint32_t fields[JINQEWAN_JOINT_WORDS];
    uint32_t answer = 0;
    size_t from = 0;
    while (from < length && answer == 0) {
        size_t next = 0;
        size_t written = 0;
        ++*joint;
        answer = jinqewan_read(input + from, length - from, JINQEWAN_OLD_KIND, fields, JINQEWAN_JOINT_WORDS, &next);
        if (answer == 0) {
            answer = jinqewan_write(fields, JINQEWAN_JOINT_WORDS, output + *size, LONGEST_OUTPUT - *size, &written);
        }
        from += next;
        *size += written;
    }
    return answer;
}

int main(void)
{
    size_t size = 0;
    unsigned joint = 0;
    size_t length = fread(input, 1, sizeof input, stdin);
    if (ferror(stdin)) {
        fprintf(stderr, "renew: the input could not be read to its end; nothing is written\n");
        return 1;
    }
    if (length > JINQEWAN_LONGEST_INPUT) {
        fprintf(stderr, "renew: the input is longer than %d bytes; nothing is written\n", JINQEWAN_LONGEST_INPUT);
        return 1;
    }
    uint32_t answer = renew(length, &size, &joint);
    if (answer != 0) {
        fprintf(stderr, "renew: joint %u is refused by %" PRIu32 "; nothing is written\n", joint, JINQEWAN_NUMBER(answer));
        return 1;
    }
    if (fwrite(output, 1, size, stdout) != size || fflush(stdout) != 0) {
        fprintf(stderr, "renew: the output could not be written whole\n");
        return 1;
    }
    return 0;
}
