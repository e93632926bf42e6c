/* What the program keyset is asked to do. Each reads standard input, writes its answer, and returns
   only if all went well. */

#ifndef TASKS_H
#define TASKS_H

/* Answers a script. */
void answer_script(void);

/* Shows where the keys and rolls of a zone are after a script, as JSON. */
void show_status(void);

/* Says which reports are due, by scripts and their notes. */
void answer_questions(void);

/* Says what a policy wants to be done next, by a script and its notes. */
void say_next(void);

#endif
