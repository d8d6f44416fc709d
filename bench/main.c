/*
 * The library beside two C planners written by hand. Without an argument it prints the times and their
 * ratios; with --answers it only compares what the three answer and write, which the times never decide.
 * Status: 0, or 1 where the three differ, or 2 for wrong use.
 */
#include "answers.h"
#include "tables.h"

#include <stdio.h>
#include <string.h>

int main(int count, char **arguments)
{
    if (count == 1) {
        print_tables();
        return 0;
    }
    if (count == 2 && strcmp(arguments[1], "--answers") == 0) {
        compare_answers();
        return 0;
    }
    fputs("bench: takes --answers or no argument\n", stderr);
    return 2;
}
