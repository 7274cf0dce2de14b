/* Stands in for the C library's header, which the kit's compiler comes without. */
#ifndef STAND_IN_STDINT_H
#define STAND_IN_STDINT_H
typedef __UINT8_TYPE__ uint8_t;
typedef __INT64_TYPE__ int64_t;
typedef __UINT64_TYPE__ uint64_t;
#endif
