#include "words.h"

#include <string.h>

/*
 * Whether the word is the option of this name. The value of a long one may follow in the word behind =, that of
 * a letter at once.
 */
static int has_name(const char *text, const char *name, const struct option_form *option, const char **value)
{
    size_t length = strlen(name);
    int is_letter = name[1] != '-';
    if (strncmp(text, name, length))
        return 0;
    if (text[length] && is_letter && option->value)
        *value = text + length;
    else if (text[length] == '=' && !is_letter)
        *value = text + length + 1;
    else
        return !text[length];
    return 1;
}

static int option_in(const char *text, const char **value)
{
    for (int o = 0; o < OPTIONS; o++)
        if (has_name(text, options[o].name, &options[o], value) ||
            (options[o].letter && has_name(text, options[o].letter, &options[o], value)))
            return o;
    return UNKNOWN_OPTION;
}

struct word next_word(struct words *words)
{
    if (!words->are_files && *words->next && !strcmp(*words->next, "--")) {
        words->are_files = 1;
        words->next++;
    }
    struct word word = {*words->next, NO_OPTION, NULL};
    if (!word.text)
        return word;
    words->next++;
    if (words->are_files || word.text[0] != '-' || !word.text[1]) /* - is a file */
        return word;
    word.option = option_in(word.text, &word.value);
    if (word.option < OPTIONS && options[word.option].value && !word.value && *words->next)
        word.value = *words->next++;
    return word;
}

struct glance look_over(char **words)
{
    struct words line = {words, 0};
    struct glance seen = {{0}, 0, {NULL}};
    size_t operands = 0;
    for (struct word word = next_word(&line); word.text; word = next_word(&line)) {
        seen.is_for_output |= word.option == OPTION_OUTPUT && word.value && !strcmp(word.value, "-");
        if (word.option < OPTIONS)
            seen.has[word.option] |= !word.value;
        else if (word.option == UNKNOWN_OPTION)
            operands = MOST_OPERANDS; /* what follows may be its value */
        else if (operands < MOST_OPERANDS)
            seen.operands[operands++] = word.text;
    }
    return seen;
}
