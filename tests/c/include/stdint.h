/* The types of C's stdint.h, from what the compiler itself says, for building where no C library has its headers. */
#ifndef HERE_STDINT_H
#define HERE_STDINT_H
typedef __UINT8_TYPE__ uint8_t;
typedef __UINT16_TYPE__ uint16_t;
typedef __UINT32_TYPE__ uint32_t;
typedef __UINT64_TYPE__ uint64_t;
typedef __INT64_TYPE__ int64_t;
#define UINT32_MAX __UINT32_MAX__
#define UINT64_MAX __UINT64_MAX__
#define INT64_C(n) n##L
#define UINT64_C(n) n##UL
#endif
