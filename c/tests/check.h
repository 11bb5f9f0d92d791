/* check.h: what the tests of the library share. */
#ifndef CHECK_H
#define CHECK_H

#include <fanquber.h>
#include <stdio.h>
#include <stdlib.h>
#include <string.h>

/* A text and its length. */
#define TEXT(text) (text), strlen(text)

static int wrong;

/* Prints where something is not as it must be. */
#define CHECK(holds) \
    do { \
        if (!(holds)) { \
            printf("%s:%d: not so: %s\n", __FILE__, __LINE__, #holds); \
            wrong = 1; \
        } \
    } while (0)

/* Two lines, of which the first is a URI of RFC 3986 and the second is none, and what is answered. */
#define URIS "http://a/b\nhttp://[\n"
#define URI_ANSWERS "yes\nno\n"

#endif
