/* The part of string.h that the corpus needs; targets/memory.c has the functions where there is no C library. */
#ifndef RQ_STRING_H
#define RQ_STRING_H

void *memcpy(void *to, const void *from, __SIZE_TYPE__ n);
void *memmove(void *to, const void *from, __SIZE_TYPE__ n);
void *memset(void *to, int value, __SIZE_TYPE__ n);

#endif
