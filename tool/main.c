#include "files.h"
#include "jobs.h"
#include "print.h"
#include "progress.h"
#include "settle.h"

#define RUNNING (TAKES(OUTPUT) | TAKES(CPUID) | TAKES(MODE) | TAKES(MEMORY) | TAKES(PARTIAL) | TAKES(JSON))

static const struct job jobs[] = {
    {"pack", "FILE", TAKES(OUTPUT), TAKES(HASH) | TAKES(BLOCK) | TAKES(SIGNATURE) | TAKES(JSON), job_pack, "IMAGE",
     "pack a command file into an image, to be signed", "route.csl -o route.sbs --hash sha256 --block 4096"},
    {"header", "IMAGE", TAKES(OUTPUT), TAKES(JSON), job_header, "HEADER",
     "extract the header that an image has, approved or not", "route.sbs -o header"},
    {"signature", "IMAGE", TAKES(OUTPUT) | TAKES(HEADER), TAKES(SIGNATURE) | TAKES(JSON), job_signature, "FIELD",
     "extract the signature field of an image", "route.sbs --header header -o field"},
    {"open", "IMAGE", TAKES(OUTPUT) | TAKES(HEADER), TAKES(SIGNATURE) | TAKES(PARTIAL) | TAKES(JSON), job_open, "FILE",
     "prove the blocks of an image and extract the file in them", "route.sbs --header approved -o route.csl"},
    {"load", "IMAGE", TAKES(HEADER) | TAKES(MAP), TAKES(SIGNATURE) | RUNNING, job_load, "MEMORY",
     "prove an image block by block and run its commands, as a unit does",
     "route.sbs --header approved --map unit.map --cpuid host"},
    {"run", "FILE", TAKES(MAP), RUNNING, job_run, "MEMORY", "run the commands of a file that is not in an image",
     "route.csl --map unit.map --cpuid host -o memory"},
    {"show", "IMAGE|FILE", 0, TAKES(MAP) | TAKES(JSON), job_show, NULL,
     "show what an image or a command file holds, and how far it is good", "route.sbs"},
    {"copy", "FILE", TAKES(OUTPUT), TAKES(JSON), job_copy, "COPY",
     "copy a file; the copy gets its name only when it is complete", "route.sbs -o outbox/route.sbs"},
};

int main(int argc, char **argv)
{
    begin_work();
    hold_standard_files();
    end_answer_at_exit();
    struct request request = read_request(argv + (argc > 0), jobs, sizeof jobs / sizeof *jobs);
    settle_files(&request);
    int status = request.job->run(&request);
    end_work();
    return status;
}
