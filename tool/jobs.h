/* The verbs. Each does its job, prints the answer and gives the exit status. */
#ifndef JOBS_H
#define JOBS_H

#include "args.h"

int job_pack(const struct request *request);
int job_open(const struct request *request);
int job_header(const struct request *request);
int job_signature(const struct request *request);
int job_load(const struct request *request);
int job_run(const struct request *request);
int job_copy(const struct request *request);
int job_show(const struct request *request);

#endif
