/* What odhrashup.h and driver.c ask of the C headers, for x86-64 Linux: the toolchain has a C library and no headers. */
#pragma once
typedef __SIZE_TYPE__ size_t;
