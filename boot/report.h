/* What the stub says on the serial port before the load. */
#ifndef REPORT_H
#define REPORT_H

#include "boot.h"
#include "handed.h"

void say_handed(const struct handed *handed, struct slice header);
void say_memory(const struct regions *regions, struct slice image);
void say_cpuid(const struct cpuid_table *table);

#endif
