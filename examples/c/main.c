/* Registers two queries, matches an article and prints which of them hold of it, and where. */
#include "pressclip.h"

#include <inttypes.h>
#include <stdio.h>
#include <string.h>

static int add(pressclip *engine, const char *id, const char *query) {
    return pressclip_register(engine, id, strlen(id), query, strlen(query), NULL, 0);
}

int main(void) {
    pressclip *engine;
    pressclip_result *result;
    const char *text = "Tea prices rise again", *id, *field;
    pressclip_field fields[] = {{"text", 4, text, strlen(text)}};
    size_t length, field_length;
    uint64_t position;
    int status = pressclip_open(true, &engine);
    if (status == PRESSCLIP_OK) status = add(engine, "tea-prices", "+tea pric*");
    if (status == PRESSCLIP_OK) status = add(engine, "strikes", "strike strikes");
    if (status == PRESSCLIP_OK) status = pressclip_match(engine, "a1", 2, fields, 1, &result);
    if (status != PRESSCLIP_OK) {
        printf("refused: %s\n", pressclip_word(status));
        return 1;
    }
    while (pressclip_next_id(result, &id, &length)) {
        printf("%.*s holds of a1\n", (int)length, id);
        while (pressclip_next_hit(result, &field, &field_length, &position))
            printf("  at word %" PRIu64 " of %.*s\n", position, (int)field_length, field);
    }
    pressclip_result_free(result);
    printf("\"the (tea\" is refused: %s\n", pressclip_word(add(engine, "open", "the (tea")));
    pressclip_close(&engine);
    return 0;
}
