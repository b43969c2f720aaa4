/* What the C code here needs of <stdint.h>, for the kit's compiler, which comes without headers. */
#ifndef BARE_STDINT_H
#define BARE_STDINT_H
typedef __UINT8_TYPE__ uint8_t;
typedef __UINT64_TYPE__ uint64_t;
#define UINT64_MAX (~(uint64_t)0)
#endif
