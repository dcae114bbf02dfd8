/** @file kijolvar_build.h
 * Which build of Kijolvar this is. A release has it in libkijolvar.a and in libkijolvar.so. */
#ifndef KIJOLVAR_BUILD_H
#define KIJOLVAR_BUILD_H

#ifdef __cplusplus
extern "C" {
#endif

/** Returns the version and the commit, as "kijolvar 0.1.0, commit 0123456789abcdef..". The text is static. */
const char *kijolvar_build(void);

#ifdef __cplusplus
}
#endif

#endif
