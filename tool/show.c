#include "codes.h"
#include "entry.h"
#include "files.h"
#include "image.h"
#include "jobs.h"
#include "listing.h"
#include "program.h"
#include "survey.h"
#include "taking.h"

#include <inttypes.h>

/* A header field: the magic as it is written, a hash with its name in text. */
static void list_field(const uint8_t *header, enum field f)
{
    struct text text = {NULL, 0};
    uint64_t value = field(header, f);
    if (f == FIELD_MAGIC) {
        say(&text, "0x%08" PRIx64, value);
    } else if (f >= FIELD_HASH_1 && f <= FIELD_HASH_4 && !is_in_json()) {
        const struct hash *hash = hash_of_id(value);
        say(&text, "%" PRIu64 " (%s)", value, hash ? hash->name : "not known");
    }
    if (text.at)
        list_text(field_names[f], &text);
    else
        list_number(field_names[f], value);
}

static void list_header(struct bytes header)
{
    open_part("header", '{');
    for (int f = 0; f < FIELDS && header.length >= LEAST_HEADER; f++)
        list_field(header.at, f);
    struct text root = {NULL, 0};
    for (size_t i = LEAST_HEADER; i < header.length; i++)
        say(&root, "%02x", header.at[i]);
    if (root.at)
        list_text("root_hash", &root);
    close_part('}');
}

/* Of the blocks from first to last, where there are any. */
static void say_blocks(struct text *text, uint64_t first, uint64_t last, const char *what)
{
    if (first > last)
        return;
    say(text, "%s%" PRIu64, text->length ? ", " : "", first);
    if (first < last)
        say(text, " to %" PRIu64, last);
    say(text, " %s", what);
}

static void list_blocks(const struct survey *s)
{
    struct text each = {NULL, 0};
    uint64_t looked_at = s->proved + (s->stop.code != 0);
    say_blocks(&each, 1, s->proved, "proved");
    say_blocks(&each, s->proved + 1, looked_at, "refused");
    say_blocks(&each, looked_at + 1, s->whole, "not proved");
    say_blocks(&each, s->whole + 1, s->blocks, "cut off");
    open_part("blocks", '{');
    list_text("each", &each);
    list_number("counted", s->blocks);
    list_number("whole", s->whole);
    list_number("proved", s->proved);
    list_number("file_length", s->file.length);
    list_number("file_proved", s->file.known);
    if (s->stop.code) {
        list_number("refused_block", s->stop.place);
        list_number("refused_with", s->stop.code);
    }
    close_part('}');
}

static int has_place(uint64_t number, enum place_kind kind)
{
    const struct code *code = code_of(number);
    return code && code->place_kind == kind;
}

/* Lists the commands as far as bytes are known. A refused one comes before a block that is refused behind it. */
static void list_commands(struct report *r, const struct stream *file)
{
    struct runnelpin_answer *a = &r->call.answer;
    struct walk w = begin_walk(file);
    open_part("program", '[');
    while (next_command(&w))
        list_command(&w.command);
    close_part(']');
    a->commands = w.whole;
    if (!a->code || (has_place(a->code, BLOCK_NUMBER) && has_place(w.code, FILE_OFFSET))) {
        a->code = w.code;
        a->place = w.code ? w.offset : 0;
    }
    if (!a->code) {
        a->entry = w.entry;
        say(&r->words, "done: %" PRIu64 " command%s, entry 0x%" PRIx64, w.whole, plural(w.whole), w.entry);
    }
    say(note(r), "the file is good up to byte %" PRIu64 " of %" PRIu64, w.code ? w.offset : file->known, file->length);
    if (r->call.board.map.length)
        note_entry(r);
    else if (!a->code)
        note_bare_entry(r, file);
}

static void list_kind(const char *name, struct bytes all)
{
    struct text kind = {NULL, 0};
    say(&kind, "%s", name);
    list_text("kind", &kind);
    if (all.length <= LARGEST) /* else it was read no further */
        list_number("length", all.length);
}

/* Whether the signature field is all zeros, where the image has all of it, and the header agrees where it begins. */
static void list_signature(const struct call *c)
{
    if (c->header.length < LEAST_HEADER)
        return;
    uint64_t start = field(c->header.at, FIELD_HEADER_SIZE), end = start + c->signature_length, at = start;
    if (start != LEAST_HEADER + field(c->header.at, FIELD_HASHSUM_LENGTH) || end > c->image.length ||
        field(c->header.at, FIELD_SIGNATURE_LENGTH) != c->signature_length)
        return;
    while (at < end && !c->image.at[at])
        at++;
    list_truth("signature_is_zero", at == end,
               at == end ? "signature field: all zeros, so the image is not signed"
                         : "signature field: not all zeros; show does not verify it");
}

static void show_image(struct report *r)
{
    struct call *c = &r->call;
    c->is_image = 1;
    c->header = own_header(c->image);
    list_header(c->header);
    c->signature_length = runnelpin_stated_signature_length(c->header.at, c->header.length);
    list_signature(c);
    c->answer.code = judge_image(c->image, c->header, c->signature_length);
    if (!c->answer.code || c->answer.code == RUNNELPIN_IMAGE_LENGTH) {
        struct survey s = survey_blocks(c->image);
        if (!c->answer.code && s.stop.code) {
            c->answer.code = s.stop.code;
            c->answer.place = s.stop.place;
        }
        list_blocks(&s);
        list_commands(r, &s.file);
    }
    say(note(r), "%s", not_approved);
}

static void show_file(struct report *r)
{
    struct stream file = stream_of_file(r->call.image.at, r->call.image.length);
    if (file.length > LARGEST)
        r->call.answer.code = RUNNELPIN_ARGUMENT;
    else if (is_like_commands(r->call.image))
        list_commands(r, &file);
    else
        r->call.answer.code = RUNNELPIN_FILE_MAGIC;
}

/* A map that breaks a rule is refused before anything is shown. */
static int take_map(struct report *r)
{
    const char *path = r->request->value[OPTION_MAP];
    struct text fault = {NULL, 0};
    if (!path)
        return 1;
    r->call.board.map = read_map(path);
    if (map_total(r->call.board.map, &fault))
        return 1;
    r->call.answer.code = RUNNELPIN_MAP;
    return 0;
}

int job_show(const struct request *request)
{
    struct report r = new_report(request);
    struct bytes *all = &r.call.image;
    r.call.is_shown = 1;
    *all = read_file(request->operand, LARGEST);
    int has_sound_map = take_map(&r);
    begin_listing(request->value[OPTION_JSON] != NULL);
    if (is_like_image(*all) && has_sound_map) {
        list_kind("image", *all);
        show_image(&r);
    } else if (has_sound_map) {
        list_kind(is_like_commands(*all) ? "command file" : "unknown", *all);
        show_file(&r);
    }
    return finish(&r);
}
