/* Checks the texts of the header: every number has its own, any other number none, and the version's is that of its parts. It needs no
 * library. */
#include "kildegrom.h"

#include <stdio.h>
#include <string.h>

#if KG_VERSION < 100
#error "the version is a number that the preprocessor can compare"
#endif

static int version_told(void)
{
    char text[40];
    snprintf(text, sizeof text, "%d.%d.%d", KG_VERSION_MAJOR, KG_VERSION_MINOR, KG_VERSION_PATCH);
    return strcmp(text, KG_VERSION_TEXT) == 0 && KG_VERSION == 10000 * KG_VERSION_MAJOR + 100 * KG_VERSION_MINOR + KG_VERSION_PATCH;
}

#define ONE(name, number, text) name,
static const uint32_t numbers[] = { KG_NUMBERS(ONE) };
enum { COUNT = sizeof numbers / sizeof numbers[0] };

static int known(uint32_t number) { return strcmp(kg_refusal_text(number), "unknown number") != 0; }

/* The numbers rise, so that each stands once, and no two have the same text. */
static int texts_told(void)
{
    uint32_t i, k;
    for (i = 0; i < COUNT; i++) {
        if (strlen(kg_refusal_text(numbers[i])) == 0 || !known(numbers[i])) return 0;
        if (i > 0 && numbers[i] <= numbers[i - 1]) return 0;
        for (k = 0; k < i; k++) {
            if (strcmp(kg_refusal_text(numbers[i]), kg_refusal_text(numbers[k])) == 0) return 0;
        }
    }
    return 1;
}

/* How many of the numbers from 0 to 1,000 have a text. */
static uint32_t known_below(void)
{
    uint32_t i, count = 0;
    for (i = 0; i <= 1000; i++) count += (uint32_t)known(i);
    return count;
}

int main(void)
{
    if (!version_told() || !texts_told()) return 1;
    if (known_below() != COUNT || known(0xFFFFFFFFu)) return 1;
    printf("texts: %d texts\n", (int)COUNT);
    return 0;
}
