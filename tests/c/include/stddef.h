/* The same for stddef.h. */
#ifndef HERE_STDDEF_H
#define HERE_STDDEF_H
typedef __SIZE_TYPE__ size_t;
#ifdef __cplusplus
#define NULL 0
#else
#define NULL ((void *)0)
#endif
#endif
