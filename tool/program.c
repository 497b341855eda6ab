#include "program.h"

#include "listing.h"

#include <inttypes.h>
#include <stdlib.h>

static void list_check(struct check check)
{
    struct text text = {NULL, 0};
    say(&text, "%.*s", (int)check.text_length, (const char *)check.text);
    list_number("eax", check.eax);
    list_number("ecx", check.ecx);
    list_number("register", check.number);
    list_number("mask", check.mask);
    list_number("value", check.value);
    list_text("text", &text);
    free(text.at);
}

/* What a command has besides ID and length, each as a field of its own. */
static void list_parameters(const struct command *c)
{
    if (c->has_address)
        list_number("address", c->address);
    if (c->has_count)
        list_number("count", c->count);
    if (c->has_pattern)
        list_number("pattern", c->parameters[FILL_PATTERN]);
    if (c->has_check)
        list_check(check_of(c));
}

void list_command(const struct command *c)
{
    static struct text name, words; /* used again for each: there may be millions */
    name.length = words.length = 0;
    say_command(&words, c);
    if (!is_in_json()) {
        say(&name, "%" PRIu64, c->offset);
        list_text(name.at, &words);
        return;
    }
    say(&name, "%s", c->name ? c->name : "unknown");
    open_part(NULL, '{');
    list_number("offset", c->offset);
    list_number("id", c->id);
    list_text("name", &name);
    list_number("length", c->length);
    list_parameters(c);
    list_text("words", &words);
    close_part('}');
}
