/* The answers of the library and of the two C planners, without times. */
#ifndef ANSWERS_H
#define ANSWERS_H

/* Compares them on the benchmark's sheets and on generated ones, stops at a difference, and says in a line
 * how many calls were compared. */
void compare_answers(void);

#endif
