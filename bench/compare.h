/* Whether the contestants do the same: what isn't the same work can't be compared by its time. */
#ifndef COMPARE_H
#define COMPARE_H

/* Stops the program with an error where an answer or a byte differs. */
void compare_contestants(void);

#endif
