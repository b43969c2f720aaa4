/* The tables of deploy. */
#ifndef DEPLOYS_H
#define DEPLOYS_H

/* 64 boards of at most 1,024, 256, 64 and 16 terms, a row for each family; then boards of several sizes and refused ones. */
void run_deploys(void);

#endif
