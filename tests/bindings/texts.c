/* Writes corwystal_text's sentence for each refusal, a line each; they must all be different, and every other answer must have a text too. */
#include "corwystal.h"

#include <stdio.h>
#include <string.h>

static int wrong;

static const char *text_of(uint32_t kind) {
    corwystal_answer a = {kind, 0, 0};
    const char *text = corwystal_text(a);
    if (text != NULL && text[0] != 0) return text;
    fprintf(stderr, "texts: an answer of kind %u has no text\n", kind);
    wrong = 1;
    return "";
}

int main(void) {
    for (uint32_t kind = CORWYSTAL_NO_SIZE; kind <= CORWYSTAL_NO_MAP_ROOM; kind++) {
        puts(text_of(kind));
        /* every other kind, those that no call answers too */
        for (uint32_t other = 0; other <= 64; other++)
            if (other != kind && strcmp(text_of(kind), text_of(other)) == 0) {
                fprintf(stderr, "texts: kinds %u and %u have the same text\n", kind, other);
                wrong = 1;
            }
    }
    for (uint32_t kind = CORWYSTAL_DONE; kind <= CORWYSTAL_MAP; kind++)
        if (strcmp(text_of(kind), "done") != 0) {
            fprintf(stderr, "texts: kind %u is no refusal, and its text is: %s\n", kind, text_of(kind));
            wrong = 1;
        }
    text_of(UINT32_MAX);
    return wrong;
}
