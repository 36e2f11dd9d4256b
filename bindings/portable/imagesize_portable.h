/*
 * What the portable library has besides imagesize.h: a status, and a call that says which library it is.
 */
#ifndef IMAGESIZE_PORTABLE_H
#define IMAGESIZE_PORTABLE_H

#include "imagesize.h"

/*
 * The module of the library did what WebAssembly does not allow, such as a read outside of its memory. The call has written no result.
 * A push parser, or a probe over spans that is passed bytes, returns this status from then on. None is expected: the module is proved.
 * The packages for Python and for Rust have an error of their own for it.
 */
#define IMAGESIZE_TRAPPED 255

#ifdef __cplusplus
extern "C" {
#endif

/* Returns 1. The native library does not have this call, so a program that loads a library can tell which one it is. */
uint32_t imagesize_is_portable(void);

#ifdef __cplusplus
}
#endif

#endif
