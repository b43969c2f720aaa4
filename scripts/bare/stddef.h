/* What the C code here needs of <stddef.h>, for the kit's compiler, which comes without headers. */
#ifndef BARE_STDDEF_H
#define BARE_STDDEF_H
typedef __SIZE_TYPE__ size_t;
#endif
