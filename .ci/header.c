/*
 * The header, for a program that includes it twice. .ci/tests compiles this in each language that
 * the header is for, and links it with the example, which includes it too.
 */
#include "chirimok.h"
#include "chirimok.h"

#if CHIRIMOK_VERSION != CHIRIMOK_VERSION_MAJOR * 1000 + CHIRIMOK_VERSION_MINOR
#error "the version is made of its two numbers"
#endif

/* C99 has no static assertion: an array of -1 places is refused in every language. */
#define IS(name, truth) typedef char name[(truth) ? 1 : -1]

IS(the_desk_is_289_words, sizeof(struct chirimok_desk) == 289 * sizeof(uint32_t));
IS(numbers_are_behind_next, offsetof(struct chirimok_desk, numbers) == 1 * sizeof(uint32_t));
IS(then_the_statements, offsetof(struct chirimok_desk, statements) == 17 * sizeof(uint32_t));
IS(then_the_marks, offsetof(struct chirimok_desk, marks) == 33 * sizeof(uint32_t));
IS(then_the_lists, offsetof(struct chirimok_desk, lists) == 49 * sizeof(uint32_t));

const char *text_of(uint32_t code);

const char *text_of(uint32_t code)
{
    return chirimok_refusal(code);
}
