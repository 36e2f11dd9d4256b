/*
 * imagesize, proved: the portable library. It has each call of imagesize.h, for any machine with a C99 compiler and its library.
 *
 * It is made of the proved library as WebAssembly, by wasm2c, and written by bindings/portable/build: change nothing here. Compile it
 * with imagesize.h beside it, by `cc -O2 -c imagesize_portable.c`. It needs memcpy, memmove, memset, setjmp and longjmp. It allocates
 * nothing, keeps nothing between two calls, and may be called by several threads at once.
 *
 * MIT License, Copyright as in the file LICENSE of the repository. wasm2c's parts are under the Apache License, Version 2.0: see the end.
 */
#include "imagesize.h"

#include <setjmp.h>
#include <string.h>

/* As in imagesize_portable.h. */
#define IMAGESIZE_TRAPPED 255

/* The module does not use all of the runtime. Nothing that is used after a trap has changed since the mark. */
#if defined __GNUC__ || defined __clang__
#pragma GCC diagnostic ignored "-Wunused-function"
#endif
#if defined __GNUC__ && !defined __clang__
#pragma GCC diagnostic ignored "-Wclobbered"
#endif

