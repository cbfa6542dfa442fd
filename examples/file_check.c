/* Checks some day files, one for each refusal and the lengths at the edges, and prints each reply.
   tests/run-c-example builds and runs it, and compares what it prints with examples/file_check.txt. */
#include "day_file.h"

#include <stdio.h>
#include <string.h>

/* The sample day: 4 stations; routes 0-1 and 0-2 in group 0, 2-3 in group 1; stars at 0 and 3; 5 handovers; 5 questions. */
static const uint8_t SAMPLE[65] = {
    4, 0, 18, 0, 9, 0, 27, 0, 8, 0, 35, 0, 10, 0, 45, 0, 20, 0,
    0, 1, 0, 0, 2, 0, 2, 3, 1,
    0, 0, 0, 0, 0, 3, 0, 0,
    0, 1, 3, 2, 2, 0, 1, 3, 0, 1,
    0, 0, 1, 0, 0, 0, 3, 0, 3, 0, 1, 0, 2, 0, 2, 0, 0, 0, 4, 0,
};

/* The smallest file: one station and four empty sections. */
static const uint8_t SMALLEST[18] = {1, 0, 18, 0, 0, 0, 18, 0, 0, 0, 18, 0, 0, 0, 18, 0, 0, 0};

static uint8_t file[8193];

static void say(const char *what, size_t length)
{
    uint32_t reply = day_file_check(file, length);
    if (reply == 0) {
        printf("%s: accepted\n", what);
    } else {
        printf("%s: refused %u at %u\n", what, (unsigned)day_file_refusal(reply), (unsigned)day_file_place(reply));
    }
}

/* The sample with one byte changed. */
static void changed(const char *what, size_t place, uint8_t value)
{
    memset(file, 0, sizeof file);
    memcpy(file, SAMPLE, sizeof SAMPLE);
    file[place] = value;
    say(what, sizeof SAMPLE);
}

int main(void)
{
    memcpy(file, SMALLEST, sizeof SMALLEST);
    say("0 bytes", 0);
    say("17 bytes", 17);
    say("18 bytes", 18);

    memcpy(file, SAMPLE, sizeof SAMPLE);
    say("the sample", sizeof SAMPLE);
    say("8192 bytes", 8192);
    say("8193 bytes", 8193);

    changed("no station", 0, 0);
    changed("33 stations", 0, 33);
    changed("byte 1 is 1", 1, 1);
    changed("routes at 17", 2, 17);
    changed("questions past the end", 14, 46);
    changed("routes of 8 bytes", 4, 8);
    changed("a route from 1 to 1", 18, 1);
    changed("a group of kind 2", 27, 2);
    changed("a route in group 2", 23, 2);
    changed("a route off its star", 26, 0);

    /* Route 2-3 is cut off, so that the star at 3 has no route. */
    memcpy(file, SAMPLE, sizeof SAMPLE);
    file[4] = 6;
    say("a star without a route", sizeof SAMPLE);
    return 0;
}
