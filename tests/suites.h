/* suites.h: every suite that there is, for the tests that go through them. */
#ifndef SUITES_H
#define SUITES_H
#include "crisp.h"

enum { EVERY_SUITE = 4 };
static const uint8_t suites[EVERY_SUITE] = {CRISP_MAGMA_CTR, CRISP_MAGMA_NULL, CRISP_MAGMA_CTR_LONG, CRISP_MAGMA_NULL_LONG};
#endif
