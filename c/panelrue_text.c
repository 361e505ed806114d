/*
 * Words for the version, outcomes, types and questions of the library; include/panelrue_text.h says what each function answers.
 */
#include "panelrue_text.h"

static const char *const outcomes[] = {"value", "arith", "abort", "Spent", "Full", "Log full"};

static const char *const types[] = {"nothing", "int", "bool"};

/* The headings of docs/QUESTIONS.md, by number. */
static const char *const questions[] = {
    "No question refused it.",
    "Is the length right?",
    "Is the header right?",
    "Is the length what the header counts?",
    "Is each function's record right?",
    "Do the functions' nodes sum up?",
    "Is main right?",
    "Are each node's fields right?",
    "Are the sizes right?",
    "Does each node stand where its sort may stand?",
    "Is each variable declared once?",
    "Is each variable used under its decl?",
    "Do the types agree?",
    "Has every variable that is read a value?",
    "Does each function return?",
    "Is the memory large enough?",
    "Is the memory of a run of this procedure?",
    "Is there such a variable now?",
    "Does the log lead back to a state before this one?",
};

#define COUNT(texts) (sizeof(texts) / sizeof(texts)[0])

const char *panelrue_version(void)
{
    return PANELRUE_VERSION;
}

const char *panelrue_outcome_name(uint64_t outcome)
{
    return outcome < COUNT(outcomes) ? outcomes[outcome] : "unknown outcome";
}

const char *panelrue_type_name(uint64_t type)
{
    return type < COUNT(types) ? types[type] : "unknown type";
}

const char *panelrue_question_text(unsigned question)
{
    return question < COUNT(questions) ? questions[question] : "Unknown question.";
}
