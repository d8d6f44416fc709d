/* The tables of times. */
#ifndef TABLES_H
#define TABLES_H

/* Prints how long each call takes, of the library and of the two C planners, and how planning grows. */
void print_tables(void);

#endif
