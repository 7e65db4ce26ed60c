/* VP9's quantizer tables. */
#ifndef SECOND_TABLES_H
#define SECOND_TABLES_H

#include <stdint.h>

extern const int16_t dc_qlookup[256];
extern const int16_t dc_qlookup_10[256];
extern const int16_t dc_qlookup_12[256];
extern const int16_t ac_qlookup[256];
extern const int16_t ac_qlookup_10[256];
extern const int16_t ac_qlookup_12[256];

#endif
