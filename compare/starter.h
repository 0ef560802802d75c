/* The starter table. */
#ifndef STARTER_H
#define STARTER_H

/* Slices of every length around the table's; the bytes at every ceiling; and its runs beside those of the book. */
void compare_starter_table(void);

#endif
