/* Answers the lines of its input by the library, explains them, and makes a few plain calls between: what valgrind is
 * run on. */
#define _GNU_SOURCE
#include "pressclip.h"

#include <stdio.h>
#include <stdlib.h>
#include <string.h>

/* Reads all that is found at once, to the last byte and number, and adds it up. */
static uint64_t read_all(pressclip_result *result) {
    const pressclip_found *found;
    uint64_t sum = 0;
    if (pressclip_result_all(result, &found) != PRESSCLIP_OK) return 0;
    for (size_t id = 0; id <= found->count; id++) sum += found->id_at[id] + found->hit_at[id];
    for (size_t hit = 0; hit < found->hit_count; hit++) sum += found->hit_name[hit] + found->hit_position[hit];
    for (size_t name = 0; name <= found->name_count; name++) sum += found->name_at[name];
    for (size_t byte = 0; byte < found->id_at[found->count]; byte++) sum += (unsigned char)found->ids[byte];
    for (size_t byte = 0; byte < found->name_at[found->name_count]; byte++) sum += (unsigned char)found->names[byte];
    return sum;
}

/* Matches articles and reads what is found one by one, at once, both in between, or not at all. */
static uint64_t match(pressclip *engine) {
    pressclip_field fields[] = {{"text", 4, "w1 w2 w3 w4", 11}, {"title", 5, "w5 W1", 5}, {"author", 6, "", 0}};
    pressclip_result *result;
    const pressclip_found *found;
    const char *id, *field;
    size_t length, field_length;
    uint64_t number, sum = pressclip_result_all(NULL, &found) + pressclip_result_all(NULL, NULL);
    for (int turn = 0; turn < 16; turn++) {
        size_t count = (size_t)turn / 4;
        if (pressclip_match(engine, "a", 1, count == 0 ? NULL : fields, count, &result) != PRESSCLIP_OK) continue;
        sum += pressclip_result_all(result, NULL);
        if (turn % 4 == 1 && pressclip_next_id(result, &id, &length)) sum += read_all(result);
        if (turn % 4 == 2) sum += read_all(result);
        while (turn % 4 != 3 && pressclip_next_id(result, &id, &length))
            while (pressclip_next_hit(result, &field, &field_length, &number)) sum += number;
        if (turn % 4 == 0) sum += read_all(result) + read_all(result);
        pressclip_result_free(result);
    }
    return sum;
}

/* Plain calls, whose answers are dropped. */
static void call(pressclip *engine) {
    pressclip_field fields[] = {{"text", 4, "w1 w2 w3 w4", 11}, {"title", 5, "w5 \xff", 4}};
    pressclip_result *result;
    const char *id, *field;
    size_t length, field_length;
    uint64_t number;
    pressclip_register(engine, "plain", 5, "w1 w2", 5, "mail", 4);
    pressclip_register(engine, "plain", 5, "\xff", 1, NULL, 0);
    pressclip_register(engine, "zero\0in", 7, "title:w1 w4", 11, NULL, 0);
    /* A sum that hangs on a byte that nothing wrote is told by valgrind. */
    if (match(engine) == 0) fputs("nothing was found\n", stderr);
    pressclip_match(engine, "a", 1, fields, 2, &result);
    if (pressclip_match(engine, "a", 1, fields, 1, &result) == PRESSCLIP_OK) {
        while (pressclip_next_id(result, &id, &length))
            while (pressclip_next_hit(result, &field, &field_length, &number)) continue;
        pressclip_result_free(result);
    }
    pressclip_count(engine, &number);
    pressclip_delete(engine, "plain", 5, &number);
    pressclip_delete(engine, "zero\0in", 7, &number);
}

/* Calls that explain a text as a query, as a line and as words, whose answers are dropped. */
static void explain(const char *text, size_t size) {
    char *reply;
    uint64_t *spans;
    size_t length;
    if (pressclip_explain(text, size, &reply, &length) == PRESSCLIP_OK) pressclip_free(reply);
    if (pressclip_explain_line(text, size, &reply, &length) == PRESSCLIP_OK) pressclip_free(reply);
    if (pressclip_words(text, size, &spans, &length) == PRESSCLIP_OK) pressclip_free(spans);
}

/* Asks whether a text is near a word, in either order, and drops the answers. */
static void ask(const char *text, size_t size) {
    pressclip_field fields[] = {{"text", 4, "w1 w2 w3 w4", 11}, {"title", 5, text, size}};
    pressclip_pair pair = {text, size, "w4*", 3, 1, false};
    bool near;
    pressclip_near(fields, 1, &pair, &near);
    pressclip_near(fields, 2, &pair, &near);
    pair = (pressclip_pair){"\"w1 w2\"", 7, "w4*", 3, 1, true};
    pressclip_near(NULL, 0, &pair, &near);
    if (pressclip_near(fields, 1, &pair, &near) != PRESSCLIP_OK || !near) fputs("w1 w2 is not near w4\n", stderr);
}

int main(void) {
    pressclip *engine;
    char *line = NULL, *reply;
    size_t room = 0, length;
    if (pressclip_open(true, &engine) != PRESSCLIP_OK) return 1;
    for (ssize_t read; (read = getline(&line, &room, stdin)) > 0;) {
        size_t size = (size_t)read - (line[read - 1] == '\n');
        if (pressclip_line(engine, line, size, &reply, &length) != PRESSCLIP_OK) return 1;
        fwrite(reply, 1, length, stdout);
        pressclip_free(reply);
        call(engine);
        explain(line, size);
        explain("w1 AND", 6);
        ask(line, size);
    }
    free(line);
    pressclip_close(&engine);
    pressclip_close(&engine);
    return 0;
}
