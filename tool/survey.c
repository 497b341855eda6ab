#include "survey.h"

/* How many blocks of those that the header counts the image has whole. */
static uint64_t whole_blocks(struct bytes image)
{
    struct stream file = stream_of_image(image.at);
    uint64_t blocks = field(image.at, FIELD_BLOCK_COUNT);
    uint64_t whole = image.length < file.start ? 0 : (image.length - file.start) / file.block_size;
    return whole < blocks ? whole : blocks;
}

/* Opens the image with its own header. */
static struct runnelpin_answer open_whole(struct bytes image)
{
    struct bytes file = zeros(stream_of_image(image.at).length);
    return open_image(image, own_header(image), field(image.at, FIELD_SIGNATURE_LENGTH), file);
}

/* Opens the image as if its whole blocks were all that its header counts. */
static struct runnelpin_answer open_cut(struct bytes image, uint64_t whole)
{
    uint8_t *count = image.at + field_places[FIELD_BLOCK_COUNT].at;
    size_t width = field_places[FIELD_BLOCK_COUNT].width;
    uint64_t blocks = little(count, width);
    put_little(count, width, whole);
    image.length = image_length(image.at);
    struct runnelpin_answer answer = open_whole(image);
    put_little(count, width, blocks);
    /* The hash field of the last block here is only that of the next one, which is cut off. */
    if (whole < blocks && answer.code == RUNNELPIN_LAST_HASH)
        answer.code = RUNNELPIN_DONE;
    return answer;
}

struct survey survey_blocks(struct bytes image)
{
    struct survey s = {.blocks = field(image.at, FIELD_BLOCK_COUNT), .whole = whole_blocks(image)};
    if (s.whole)
        s.stop = open_cut(image, s.whole);
    s.proved = s.stop.code ? s.stop.place - 1 : s.whole;
    s.file = stream_of_image(image.at);
    s.file.known = bytes_before_block(&s.file, s.proved + 1);
    return s;
}
