/*
 * The calls of written C that libecpg has in another form, as include/ecpglib.h names them. Nothing is kept between
 * two calls, so threads may make them as they may make libecpg's.
 */
#define ECPGC_INSIDE
#include <ecpglib.h>
#include <ecpgerrno.h>
#include <ctype.h>
#include <limits.h>
#include <stdarg.h>
#include <stdlib.h>
#include <strings.h>

/* A member of a list: ten values, of which that of an indicator's length is always 0. */
struct member {
    enum ECPGttype type;
    void *at;
    long length, count, distance;
    enum ECPGttype indicator_type;
    void *indicator;
    long indicators, indicator_distance;
};

/* The arguments behind those that a function of libecpg names, each as one word. */
struct words {
    long *at;
    size_t count, room;
    bool is_whole;
};

/*
 * A struct of many words lies among the arguments as these words would. libecpg takes no va_list and stops at the end
 * of the list, so any struct that is large enough serves. Where a function names three arguments, REGISTERS words come
 * in registers before the struct.
 */
enum { REGISTERS = 3, FEW = 128, SOME = 2048, MOST = 32768 };
struct few { long at[FEW]; };
struct some { long at[SOME]; };
struct most { long at[MOST]; };

#define WITH_WORDS(words, begin, function, ...) \
    ((words)->room == FEW ? function(__VA_ARGS__, *(struct few *)((words)->at + (begin))) \
     : (words)->room == SOME ? function(__VA_ARGS__, *(struct some *)((words)->at + (begin))) \
     : function(__VA_ARGS__, *(struct most *)((words)->at + (begin))))

/* Leaves in sqlca what libecpg leaves of an error that it finds by itself. */
static void fail(int line, long code, const char *state, const char *text)
{
    struct sqlca_t *area = ECPGget_sqlca();

    if (area == NULL)
        return;
    memset(area, 0, sizeof *area);
    memcpy(area->sqlcaid, "SQLCA   ", sizeof area->sqlcaid);
    memcpy(area->sqlerrp, "NOT SET ", sizeof area->sqlerrp);
    memcpy(area->sqlstate, state, sizeof area->sqlstate);
    area->sqlabc = sizeof *area;
    area->sqlcode = code;
    snprintf(area->sqlerrm.sqlerrmc, sizeof area->sqlerrm.sqlerrmc, "%s on line %d", text, line);
    area->sqlerrm.sqlerrml = strlen(area->sqlerrm.sqlerrmc);
}

static void fail_memory(int line)
{
    fail(line, ECPG_OUT_OF_MEMORY, "YE001", "out of memory");
}

static void fail_count(int line)
{
    fail(line, ECPG_TOO_MANY_ARGUMENTS, "07001", "too many arguments");
}

static struct words new_words(void)
{
    long *at = calloc(REGISTERS + FEW, sizeof *at);

    return (struct words){at, 0, FEW, at != NULL};
}

static void put(struct words *words, long word)
{
    if (words->is_whole && words->count == words->room) {
        size_t room = words->room == MOST ? 0 : 16 * words->room;
        long *at = room > 0 ? calloc(REGISTERS + room, sizeof *at) : NULL;

        words->is_whole = at != NULL;
        if (!words->is_whole)
            return;
        memcpy(at, words->at, words->count * sizeof *at);
        free(words->at);
        words->at = at;
        words->room = room;
    }
    if (words->is_whole)
        words->at[words->count++] = word;
}

/* Whether all words are there; if not, sqlca says why. */
static bool is_whole(const struct words *words, int line)
{
    if (words->is_whole)
        return true;
    if (words->room == MOST)
        fail_count(line);
    else
        fail_memory(line);
    return false;
}

static bool is_char(enum ECPGttype type)
{
    return type == ECPGt_char || type == ECPGt_unsigned_char;
}

/*
 * The member of a type whose other values come next. libecpg reads a length of 0 as "a pointer stands there", so what
 * isn't of characters has 1 for it. Of a `char *` it wants a distance of 1: with that of a pointer it looks for an
 * array of them.
 */
static struct member next_member(enum ECPGttype type, va_list *list)
{
    struct member member = {.type = type};

    member.at = va_arg(*list, void *);
    member.length = va_arg(*list, long);
    member.count = va_arg(*list, long);
    member.distance = va_arg(*list, long);
    member.indicator_type = va_arg(*list, enum ECPGttype);
    member.indicator = va_arg(*list, void *);
    (void)va_arg(*list, long);
    member.indicators = va_arg(*list, long);
    member.indicator_distance = va_arg(*list, long);
    if (!is_char(type) && type != ECPGt_varchar)
        member.length = 1;
    else if (member.length == 0 && member.count == 1)
        member.distance = 1;
    return member;
}

static void put_place(struct words *words, const struct member *member)
{
    put(words, member->type);
    put(words, (long)member->at);
    put(words, member->length);
    put(words, member->count);
    put(words, member->distance);
}

static void put_member(struct words *words, const struct member *member)
{
    put_place(words, member);
    put(words, member->indicator_type);
    put(words, (long)member->indicator);
    put(words, member->indicator_type == ECPGt_NO_INDICATOR ? 0 : 1);
    put(words, member->indicators);
    put(words, member->indicator_distance);
}

/* The members up to the end of the list, which stands for inputs, outputs, or both. */
static void put_members(struct words *words, va_list *list)
{
    enum ECPGttype type;

    while ((type = va_arg(*list, enum ECPGttype)) != ECPGt_EORT) {
        struct member member;

        if (type == ECPGt_EOIT) {
            put(words, type);
            continue;
        }
        member = next_member(type, list);
        put_member(words, &member);
    }
    put(words, ECPGt_EORT);
}

static void run(int line, const char *connection, int kind, const char *text, const struct words *words)
{
    if (is_whole(words, line))
        WITH_WORDS(words, 0, ECPGdo, line, 0, 1, connection, false, kind, text);
}

/* Whether a text begins with a word, in letters of either case. */
static bool begins(const char *text, const char *word)
{
    size_t length = strlen(word);

    return strncasecmp(text, word, length) == 0 && isspace((unsigned char)text[length]);
}

/* Whether a statement is of those in which the server takes no parameters, and libecpg puts values into the text. */
static bool is_inserted(const char *text)
{
    return begins(text, "FETCH") || begins(text, "MOVE") || begins(text, "SET") || begins(text, "ALTER");
}

/* The text with $0 for each parameter, where libecpg puts the value. What is quoted stays. */
static char *with_places(const char *text)
{
    char *copy = malloc(strlen(text) + 1), *to = copy, quote = 0;

    for (; copy != NULL && *text != 0; text++) {
        *to++ = *text;
        if (quote != 0)
            quote = *text == quote ? 0 : quote;
        else if (*text == '\'' || *text == '"')
            quote = *text;
        else if (*text == '$' && isdigit((unsigned char)text[1])) {
            *to++ = '0';
            while (isdigit((unsigned char)text[1]))
                text++;
        }
    }
    if (copy != NULL)
        *to = 0;
    return copy;
}

/* Opens a cursor: the text of what was prepared is put where $1 stands behind the cursor's head. */
static void open_cursor(int line, const char *connection, const char *head, const char *name, va_list *list)
{
    struct words words;
    struct member prepared = {.type = ECPGt_char_variable, .length = 1, .count = 1, .distance = 1,
                              .indicator_type = ECPGt_NO_INDICATOR};
    size_t size = strlen(head) + sizeof "$1";
    char *text;

    if (!ECPGstatus(line, connection))
        return;
    prepared.at = ECPGprepared_statement(connection, name, line);
    if (prepared.at == NULL) {
        ECPGdo(line, 0, 1, connection, false, ECPGst_execute, name, ECPGt_EOIT, ECPGt_EORT);    /* says so in sqlca */
        return;
    }
    text = malloc(size);
    if (text == NULL) {
        fail_memory(line);
        return;
    }
    snprintf(text, size, "%s$1", head);
    words = new_words();
    put_member(&words, &prepared);
    put_members(&words, list);
    run(line, connection, ECPGst_normal, text, &words);
    free(words.at);
    free(text);
}

/* Sends a statement and stores its rows. */
void ecpgc_do(int line, const char *connection, int kind, ...)
{
    va_list list;
    const char *text;
    char *changed = NULL;

    va_start(list, kind);
    text = va_arg(list, const char *);
    if (kind == ECPGst_open) {
        const char *name = va_arg(list, const char *);

        open_cursor(line, connection, text, name, &list);
        va_end(list);
        return;
    }
    if (kind == ECPGst_normal && is_inserted(text)) {
        changed = with_places(text);
        text = changed;
    }
    if (text == NULL)
        fail_memory(line);
    else {
        struct words words = new_words();

        put_members(&words, &list);
        run(line, connection, kind, text, &words);
        free(words.at);
    }
    free(changed);
    va_end(list);
}

/* Sends transaction control. libecpg knows what begins a transaction by small letters; in quotes all stays. */
void ecpgc_trans(int line, const char *connection, const char *text)
{
    char *small = strdup(text), *at;

    if (small == NULL) {
        fail_memory(line);
        return;
    }
    for (at = small; *at != 0 && *at != '\'' && *at != '"'; at++)
        *at = (char)tolower((unsigned char)*at);
    ECPGtrans(line, connection, small);
    free(small);
}

/* The number in a text, at most its first 31 bytes. */
static long number_in(const char *text, size_t length)
{
    char digits[32] = "";

    memcpy(digits, text, length < sizeof digits ? length : sizeof digits - 1);
    return strtol(digits, NULL, 10);
}

/* The number that a member has: an index, a count, an indicator, a type, a length. */
static int number_of(const struct member *member)
{
    const char *text = member->at;
    long number;

    switch (member->type) {
    case ECPGt_short: number = *(short *)member->at; break;
    case ECPGt_unsigned_short: number = *(unsigned short *)member->at; break;
    case ECPGt_int: number = *(int *)member->at; break;
    case ECPGt_unsigned_int: number = *(unsigned int *)member->at; break;
    case ECPGt_long: case ECPGt_unsigned_long: case ECPGt_long_long: case ECPGt_unsigned_long_long:
        number = *(long *)member->at; break;
    case ECPGt_bool: number = *(bool *)member->at; break;
    case ECPGt_const: number = strtol(text, NULL, 10); break;
    case ECPGt_varchar: number = number_in(text + sizeof(int), *(int *)member->at); break;
    default:
        if (member->length == 0)
            text = *(char **)member->at;
        number = number_in(text, member->length == 0 ? strlen(text) : strnlen(text, member->length));
    }
    return number > INT_MAX ? INT_MAX : number < INT_MIN ? INT_MIN : (int)number;
}

/* Stores a count. */
static void store_number(const struct member *member, int number)
{
    char digits[16];
    int length = snprintf(digits, sizeof digits, "%d", number);

    switch (member->type) {
    case ECPGt_short: case ECPGt_unsigned_short: *(short *)member->at = (short)number; break;
    case ECPGt_int: case ECPGt_unsigned_int: *(int *)member->at = number; break;
    case ECPGt_long: case ECPGt_unsigned_long: case ECPGt_long_long: case ECPGt_unsigned_long_long:
        *(long *)member->at = number; break;
    case ECPGt_bool: *(bool *)member->at = number != 0; break;
    case ECPGt_varchar:
        *(int *)member->at = length < member->length ? length : (int)member->length;
        memcpy((char *)member->at + sizeof(int), digits, *(int *)member->at);
        break;
    default:
        if (member->length > 0)
            strncpy(member->at, digits, member->length);
        else
            strcpy(*(char **)member->at, digits);
    }
}

/* The only member behind the descriptor's name. */
#define ONE_MEMBER(member, last) \
    va_list list; \
    va_start(list, last); \
    enum ECPGttype type = va_arg(list, enum ECPGttype); \
    struct member member = next_member(type, &list); \
    va_end(list)

/* Gives the count of a descriptor. */
void ecpgc_get_desc_header(int line, const char *descriptor, ...)
{
    int count;
    ONE_MEMBER(member, descriptor);

    if (ECPGget_desc_header(line, descriptor, &count))
        store_number(&member, count);
}

/* Sets the count of a descriptor. */
void ecpgc_set_desc_header(int line, const char *descriptor, ...)
{
    ONE_MEMBER(member, descriptor);

    ECPGset_desc_header(line, descriptor, number_of(&member));
}

/* Whether libecpg takes an item from a member of this type: all but the value itself from numbers alone. */
static bool is_taken(enum ECPGdtype item, enum ECPGttype type)
{
    return item == ECPGd_data
        || !(is_char(type) || type == ECPGt_varchar || type == ECPGt_const || type == ECPGt_bool);
}

enum { ITEM_WORDS = 6, AT_WORD = 2 };

/* Turns the items round: `ecpg` gives the last one first, so that one which fails is behind the same others. */
static void turn_items(long *at, size_t count)
{
    for (size_t number = 0; number < count / 2 * ITEM_WORDS; number++) {
        size_t item = number / ITEM_WORDS, word = number % ITEM_WORDS;
        size_t other = (count - 1 - item) * ITEM_WORDS + word;
        long kept = at[number];

        at[number] = at[other];
        at[other] = kept;
    }
}

/*
 * The items of a descriptor, each before its member, which has no indicator in libecpg's list. A number that libecpg
 * wouldn't take is kept in `numbers`, which has a place for each item.
 */
static void descriptor_items(bool is_set, int line, const char *descriptor, va_list *list)
{
    enum ECPGttype type = va_arg(*list, enum ECPGttype);
    struct member member = next_member(type, list);
    struct words words = new_words(), numbers = new_words();
    int index = number_of(&member), item;

    while ((item = va_arg(*list, int)) != ECPGd_EODT) {
        member = next_member(va_arg(*list, enum ECPGttype), list);
        put(&words, item);
        put(&numbers, 0);
        if (is_set && numbers.is_whole && !is_taken(item, member.type)) {
            numbers.at[numbers.count - 1] = number_of(&member);
            member = (struct member){.type = ECPGt_long, .length = 1, .count = 1, .distance = sizeof(long)};
        }
        put_place(&words, &member);
    }
    put(&words, ECPGd_EODT);
    if (is_whole(&words, line) && is_whole(&numbers, line)) {
        long *at = words.at;

        for (size_t number = 0; number < numbers.count; number++)
            if (at[number * ITEM_WORDS + AT_WORD] == 0)
                at[number * ITEM_WORDS + AT_WORD] = (long)&numbers.at[number];
        turn_items(at, numbers.count);
        if (is_set)
            WITH_WORDS(&words, REGISTERS, ECPGset_desc, line, descriptor, index, at[0], at[1], at[2]);
        else
            WITH_WORDS(&words, REGISTERS, ECPGget_desc, line, descriptor, index, at[0], at[1], at[2]);
    }
    free(words.at);
    free(numbers.at);
}

/* Gives items of a descriptor. */
void ecpgc_get_desc(int line, const char *descriptor, ...)
{
    va_list list;

    va_start(list, descriptor);
    descriptor_items(false, line, descriptor, &list);
    va_end(list);
}

/* Sets items of a descriptor. */
void ecpgc_set_desc(int line, const char *descriptor, ...)
{
    va_list list;

    va_start(list, descriptor);
    descriptor_items(true, line, descriptor, &list);
    va_end(list);
}
