/* What examples-c/split_block.c needs of <string.h>, for the kit's compiler, which comes without headers. */
#ifndef BARE_STRING_H
#define BARE_STRING_H
int strcmp(const char *one, const char *other);
#endif
