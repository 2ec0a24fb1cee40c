/* What shb-std knows of modules: each has a reader, a process that answers (reader/). */
#include "converter.h"
#include "answers.h"

typedef struct reader reader;
/* its texts stand until the next one */
typedef struct { u64 one, two; const char *first, *second; } answer;
reader *open_reader(const char *path);                /* of a module */
void ask(reader *r, enum request_kind kind, const u64 *numbers, u64 count);
/* 0: there is no more; it has to be asked for until then */
int next_answer(reader *r, answer *to);
/* where there is one, or none */
int ask_one(reader *r, enum request_kind kind, const u64 *numbers, u64 count, answer *to);
/* it can't be: nothing more is taken from there */
void refuse_answer(reader *r);
