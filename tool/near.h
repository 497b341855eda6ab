/* Names that are nearly right. */
#ifndef NEAR_H
#define NEAR_H

/*
 * Whether a name may be meant by what was typed: one begins with the other, or they differ in one place only, in
 * one or two letters and never in the first. Hyphens in front don't count.
 */
int is_near(const char *typed, const char *name);

#endif
