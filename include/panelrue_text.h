/*
 * Words for what panelrue.h has numbers for: the version, outcomes, types and questions, for hosts in C and C++ that print them.
 *
 * c/panelrue_text.c defines these functions. They are plain C beside the proved library, need nothing and keep no state. Each answers
 * a text that ends with a zero byte and stays for ever; a number that stands for nothing has a text as well, so none is ever null.
 */
#ifndef PANELRUE_TEXT_H
#define PANELRUE_TEXT_H

#include "panelrue.h"

#ifdef __cplusplus
extern "C" {
#endif

/* PANELRUE_VERSION of the header that these functions were compiled with. */
const char *panelrue_version(void);

/* How a run stopped: "value", "arith", "abort", "Spent", "Full" or "Log full"; else "unknown outcome". */
const char *panelrue_outcome_name(uint64_t outcome);

/* What a variable holds: "nothing", "int" or "bool"; else "unknown type". */
const char *panelrue_type_name(uint64_t type);

/* The question of a refusal, 1 to 18, as docs/QUESTIONS.md asks it; 0 is "No question refused it.", else "Unknown question." */
const char *panelrue_question_text(unsigned question);

#ifdef __cplusplus
}
#endif

#endif
