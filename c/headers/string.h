/* SPDX-License-Identifier: Apache-2.0 */
/* see stdio.h */
#ifndef STRING_H
#define STRING_H
typedef unsigned long size_t;
int memcmp(const void *a, const void *b, size_t length);
void *memcpy(void *to, const void *from, size_t length);
void *memset(void *to, int byte, size_t length);
#endif
