#include "codes.h"

#include "runnelpin.h"

#include <stddef.h>

enum { BY_ALL = BY_LOAD | BY_RUN | BY_OPEN | BY_PACK, RUNNING = BY_LOAD | BY_RUN, OPENING = BY_LOAD | BY_OPEN };

static const struct code codes[] = {
    [RUNNELPIN_DONE] = { BY_ALL, NO_PLACE, MAY_CHANGE, "done", "all commands were run" },
    [RUNNELPIN_ARGUMENT] = { BY_ALL, NO_PLACE, UNCHANGED, "argument",
                             "mode must be 32 or 64, signature length 1 to 4096, input at most 2^30 bytes" },
    [RUNNELPIN_MAP] = { RUNNING, NO_PLACE, UNCHANGED, "map",
                        "the map breaks a rule, or memory is not as long as its regions" },
    [RUNNELPIN_TABLE] = { RUNNING, NO_PLACE, UNCHANGED, "CPUID table",
                          "it must have at most 64 whole records, in ascending order" },
    [RUNNELPIN_APPROVED] = { OPENING, NO_PLACE, UNCHANGED, "approved header",
                             "it is shorter than 36 bytes, or the image does not begin with it" },
    [RUNNELPIN_HEADER_MAGIC] = { OPENING, NO_PLACE, UNCHANGED, "header magic",
                                 "not an image (one begins with 98 95 01 e6)" },
    [RUNNELPIN_HASH_ID] = { OPENING | BY_PACK, NO_PLACE, UNCHANGED, "hash",
                            "one is not supported, or the first is none" },
    [RUNNELPIN_HASHSUM_LENGTH] = { OPENING, NO_PLACE, UNCHANGED, "hashsum length",
                                   "it is not the length of all hashes together" },
    [RUNNELPIN_HEADER_SIZE] = { OPENING, NO_PLACE, UNCHANGED, "header size",
                                "it is not 36 plus the hashsum length, or not the length of the approved header" },
    [RUNNELPIN_SCHEME] = { OPENING, NO_PLACE, UNCHANGED, "signature scheme", "it is not 1, the only one supported" },
    [RUNNELPIN_SIGNATURE_LENGTH] = { OPENING, NO_PLACE, UNCHANGED, "signature length", "it is not the expected one" },
    [RUNNELPIN_BLOCKS] = { OPENING | BY_PACK, NO_PLACE, UNCHANGED, "blocks",
                           "the count is 0, the size is not above the hashsum length or is above 1048576, "
                           "or the padding fills a block" },
    [RUNNELPIN_IMAGE_LENGTH] = { OPENING, NO_PLACE, UNCHANGED, "image length",
                                 "it is not the length of header, signature field and blocks together" },
    [RUNNELPIN_BLOCK_HASHSUM] = { OPENING, BLOCK_NUMBER, MAY_CHANGE, "block hashsum",
                                  "it does not match, so the block is not the one that was packed" },
    [RUNNELPIN_BLOCK_PADDING] = { OPENING, BLOCK_NUMBER, MAY_CHANGE, "block padding", "it is not all zeros" },
    [RUNNELPIN_LAST_HASH] = { OPENING, BLOCK_NUMBER, MAY_CHANGE, "last block", "its hash field is not all zeros" },
    [RUNNELPIN_FILE_MAGIC] = { RUNNING, NO_PLACE, UNCHANGED, "file magic",
                               "not a command file (one begins with 5e b6 8c 44 a2 5f dc 8a)" },
    [RUNNELPIN_COMMAND_CUT] = { RUNNING, FILE_OFFSET, MAY_CHANGE, "command cut off",
                                "it runs past the end of the file" },
    [RUNNELPIN_COMMAND_ID] = { RUNNING, FILE_OFFSET, MAY_CHANGE, "unknown command",
                               "there is no command with this number" },
    [RUNNELPIN_COMMAND_LENGTH] = { RUNNING, FILE_OFFSET, MAY_CHANGE, "command length",
                                   "its data length is wrong for this command" },
    [RUNNELPIN_NOT_REACHABLE] = { RUNNING, FILE_OFFSET, MAY_CHANGE, "not reachable",
                                  "an address is beyond the reach of this mode" },
    [RUNNELPIN_NOT_RAM] = { RUNNING, FILE_OFFSET, MAY_CHANGE, "not RAM", "an address is in no region of the map" },
    [RUNNELPIN_TEXT] = { RUNNING, FILE_OFFSET, MAY_CHANGE, "check text", "it has no zero byte" },
    [RUNNELPIN_CPUID_MISSING] = { RUNNING, FILE_OFFSET, MAY_CHANGE, "no CPUID table",
                                  "the command is a CPUID check, which needs one" },
    [RUNNELPIN_REGISTER] = { RUNNING, FILE_OFFSET, MAY_CHANGE, "check register",
                             "the number must be 0 to 3, for EAX, EBX, ECX or EDX" },
    [RUNNELPIN_NO_RECORD] = { RUNNING, FILE_OFFSET, MAY_CHANGE, "no CPUID record",
                              "the table has no record with the inputs of this check" },
    [RUNNELPIN_CHECK_FAILED] = { RUNNING, FILE_OFFSET, MAY_CHANGE, "CPUID check failed",
                                 "the register does not have the required value" },
    [RUNNELPIN_NO_ENTRY] = { RUNNING, FILE_LENGTH, MAY_CHANGE, "no entry", "the file ends without an entry command" },
    [RUNNELPIN_EMPTY_FILE] = { BY_PACK, NO_PLACE, UNCHANGED, "empty file", "there is nothing to pack" },
    [RUNNELPIN_OUTPUT_LENGTH] = { BY_OPEN | BY_PACK, NO_PLACE, UNCHANGED, "output length",
                                  "it is not exactly the length of the result" },
};

const struct code *code_of(uint64_t number)
{
    return number < sizeof codes / sizeof *codes && codes[number].name ? &codes[number] : NULL;
}
