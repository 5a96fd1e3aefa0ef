/*
 * The header ecpglib.h for the C that `ecpgc translate` writes, over PostgreSQL's own libecpg.
 *
 * Put its folder before PostgreSQL's, as README.md beside it shows. It takes PostgreSQL's header of the same name in,
 * whose declarations stay as they are, and leads the calls with other arguments than libecpg has to functions of
 * ecpgc.c. The members of a list are passed as the ABI of 64-bit Linux on x86-64 has it.
 */
#ifndef ECPGC_ECPGLIB_H
#define ECPGC_ECPGLIB_H

#if !defined __x86_64__ || !defined __LP64__
#error "this header is for 64-bit programs on x86-64"
#endif

#include <stdbool.h>
#include <stdio.h>
#include <string.h>
#include_next <ecpglib.h>

/* A source may call exit without a header; its other functions are in the headers above. */
extern void exit(int status) __attribute__((noreturn));

/* The kind of a call that opens a cursor for a prepared statement. libecpg has no such kind. */
enum { ECPGst_open = 100 };

void ecpgc_do(int line, const char *connection, int kind, ...);
void ecpgc_trans(int line, const char *connection, const char *text);
void ecpgc_get_desc_header(int line, const char *descriptor, ...);
void ecpgc_set_desc_header(int line, const char *descriptor, ...);
void ecpgc_get_desc(int line, const char *descriptor, ...);
void ecpgc_set_desc(int line, const char *descriptor, ...);

#ifndef ECPGC_INSIDE
/*
 * The calls of written C. A name in parentheses is libecpg's function. ECPGsetcommit, ECPGallocate_desc and
 * ECPGdeallocate_desc have the same arguments in both.
 */
#define ECPGdo(...) ecpgc_do(__VA_ARGS__)
#define ECPGconnect(line, target, user, password, name) \
    (ECPGconnect)(line, 0, (const char *)(target), (const char *)(user), (const char *)(password), \
        (const char *)(name), 0)
#define ECPGdisconnect(line, name) (ECPGdisconnect)(line, (const char *)(name))
#define ECPGsetconn(line, name) (ECPGsetconn)(line, (const char *)(name))
#define ECPGtrans(line, connection, text) ecpgc_trans(line, (const char *)(connection), text)
#define ECPGprepare(line, connection, name, text) \
    (ECPGprepare)(line, (const char *)(connection), false, name, (const char *)(text))
#define ECPGdeallocate(line, connection, name) (ECPGdeallocate)(line, 0, (const char *)(connection), name)
#define ECPGget_desc_header(...) ecpgc_get_desc_header(__VA_ARGS__)
#define ECPGset_desc_header(...) ecpgc_set_desc_header(__VA_ARGS__)
#define ECPGget_desc(...) ecpgc_get_desc(__VA_ARGS__)
#define ECPGset_desc(...) ecpgc_set_desc(__VA_ARGS__)
#endif

#endif
