/* Asks the question of the files tree, settings and question in the folder that is given, within the limit that is given behind it, and prints
 * number, texts and consulted paths; of a refusal, its number and how many paths were consulted.
 * Build and run: bindings/c/test */
#include "hannuvozh.h"
#include <stdio.h>
#include <stdlib.h>
#include <string.h>

static uint8_t tree[HANNUVOZH_MOST_LISTING + 1], settings[1024], question[2048];
static uint8_t result[HANNUVOZH_RESULT_ENOUGH], work[HANNUVOZH_WORK_LENGTH], text[1 << 20];
static uint32_t numbers[HANNUVOZH_NUMBERS_ENOUGH];

static size_t load(const char *folder, const char *name, uint8_t *buffer, size_t length) {
    char path[4096];
    snprintf(path, sizeof path, "%s/%s", folder, name);
    FILE *file = fopen(path, "rb");
    if (file == NULL) {
        perror(path);
        exit(3);
    }
    size_t read = fread(buffer, 1, length, file);
    fclose(file);
    return read;
}

/* Each text after a space; the query and fragment of a found file join its path. */
static void print_answer(uint32_t number, const uint32_t counts[HANNUVOZH_COUNTS]) {
    static const int texts[] = {3, 1, 1, 3, 2, 1, 1, 1};
    const uint8_t *at = result;
    printf("%u", (unsigned)number);
    for (int i = 0; i < texts[number]; i++) {
        if (i == 0 || number != HANNUVOZH_FOUND) putchar(' ');
        fwrite(at, 1, counts[i], stdout);
        at += counts[i];
    }
    putchar('\n');
}

static void print_list(void) {
    const uint8_t *at = text;
    for (uint32_t i = 0; i < numbers[0]; i++) {
        printf("%u ", (unsigned)numbers[2 + numbers[0] + i]);
        fwrite(at, 1, numbers[2 + i], stdout);
        putchar('\n');
        at += numbers[2 + i];
    }
}

int main(int count, char **arguments) {
    const char *folder = count > 1 ? arguments[1] : ".";
    size_t tree_length = load(folder, "tree", tree, sizeof tree);
    size_t settings_length = load(folder, "settings", settings, sizeof settings);
    size_t question_length = load(folder, "question", question, sizeof question);
    const uint8_t *newline = memchr(question, '\n', question_length);
    size_t start_length = newline == NULL ? question_length : (size_t)(newline - question);
    const uint8_t *specifier = newline == NULL ? question + question_length : newline + 1;
    size_t specifier_length = question_length - (size_t)(specifier - question);

    uint32_t limit = count > 2 ? (uint32_t)strtoul(arguments[2], NULL, 10) : HANNUVOZH_GATEWAY_LIMIT;

    uint32_t counts[HANNUVOZH_COUNTS];
    uint32_t number = hannuvozh_lookup(tree, tree_length, settings, settings_length, question, start_length, specifier, specifier_length, limit,
                                       result, sizeof result, numbers, HANNUVOZH_NUMBERS_ENOUGH, text, sizeof text, work, sizeof work, counts);
    if (number > HANNUVOZH_JSON) {
        printf("%u, %u consults\n", (unsigned)number, (unsigned)counts[HANNUVOZH_CONSULTS]);
        return 2;
    }
    print_answer(number, counts);
    print_list();
    return number == HANNUVOZH_FOUND ? 0 : 1;
}
