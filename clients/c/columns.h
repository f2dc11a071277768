/* Columns of a tuple, as the clients of C and C++ write them, and what ends a client that is answered otherwise than it should be. */
#ifndef COLUMNS_H
#define COLUMNS_H

#include "art_index.h"

#include <stdio.h>
#include <stdlib.h>
#include <string.h>

static inline art_index_column number(uint64_t n)
{
    art_index_column column = {ART_INDEX_UNSIGNED, 0, n, {0}};
    return column;
}

static inline art_index_column signed_number(int64_t n)
{
    art_index_column column = {ART_INDEX_SIGNED, 0, (uint64_t)n, {0}};
    return column;
}

static inline art_index_column text(const char *s)
{
    size_t length = strlen(s);
    art_index_column column = {ART_INDEX_TEXT, (uint32_t)length, 0, {0}};
    memcpy(column.text, s, length < 24 ? length : 24);
    return column;
}

static inline void want(int holds, const char *what)
{
    if (!holds) {
        fprintf(stderr, "wrong: %s\n", what);
        exit(1);
    }
}

#endif
