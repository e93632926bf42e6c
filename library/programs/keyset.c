/* The program keyset over the library, for machines that the toolchain makes no programs for. It
   takes the words of the proved program, answers as it does, and ends with its statuses. */

#include "tasks.h"
#include "text.h"

#include <signal.h>

/* A word, and what it asks for. */
struct word {
    const char *word;
    void (*task)(void);
};

static const char VERSION[] = "keyset " KEYSET_RELEASE "\n";

static const char HELP[] =
    "usage: keyset [WORD]\n"
    "\n"
    "Reads a script of a DNSSEC key set from standard input, and writes\n"
    "\n"
    "  without a word  the answer to each call, the published sets and the verdict\n"
    "  status          the status of the zone after the script, as JSON\n"
    "  notes           the reports that are due, by notes: after the script come an\n"
    "                  empty line, the notes and questions\n"
    "  next            what a policy says to do next: first comes the policy, then the\n"
    "                  script, then the notes and `next` with a second since 1970, with\n"
    "                  empty lines between these three\n"
    "  --version       its name and version; it reads nothing\n"
    "  --help          this text; it reads nothing\n"
    "\n"
    "Called as keyset_status or keyset_notes, it does as with that word. It ends with\n"
    "\n"
    "  0   if all was answered\n"
    "  1   if the policy, the script or the notes are malformed or refused\n"
    "  2   if the input or the output fails\n"
    "  3   if there is no memory\n"
    "  64  if there is no such word, or more than one\n"
    "\n"
    "and unless that is 0, standard error says why.\n";

static void say(const char *text)
{
    if (fputs(text, stdout) == EOF || fflush(stdout) != 0)
        end(DEVICE, "", "input or output fault");
}

static void say_version(void)
{
    say(VERSION);
}

static void say_help(void)
{
    say(HELP);
}

/* A link of the name keyset_status asks for what the word status does. */
static const struct word WORDS[] = {
    {"status", show_status}, {"notes", answer_questions}, {"next", say_next}, {NULL, NULL}};

/* What may be asked under each name. */
static const struct word OPTIONS[] = {
    {"--version", say_version}, {"--help", say_help}, {NULL, NULL}};

/* How the name of a link begins, and how long the path of a program is at most. */
static const char LINK[] = "keyset_";
enum { LONGEST = 4096 };

/* What a word asks for, or NULL. */
static const struct word *find(const struct word *table, const char *word)
{
    for (; table->word != NULL; table++)
        if (strcmp(table->word, word) == 0)
            return table;
    return NULL;
}

/* What a link asks for, by the path that the program is called by. It may be missing. */
static const struct word *find_link(const char *path)
{
    const char *slash, *name;
    if (path == NULL || strlen(path) > LONGEST)
        return NULL;
    slash = strrchr(path, '/');
    name = slash != NULL ? slash + 1 : path;
    if (strncmp(name, LINK, strlen(LINK)) != 0)
        return NULL;
    return find(WORDS, name + strlen(LINK));
}

int main(int count, char **arguments)
{
    const struct word *asked = count > 0 ? find_link(arguments[0]) : NULL;
    /* A pipe that nobody reads is a fault of the output, as in the proved program. */
    signal(SIGPIPE, SIG_IGN);
    if (count > 2)
        end(USAGE, "", "more than one word: see keyset --help");
    if (count == 2) {
        const struct word *option = find(OPTIONS, arguments[1]), *word = find(WORDS, arguments[1]);
        if (option == NULL && word == NULL)
            end(USAGE, "", "no such word: see keyset --help");
        if (option == NULL && asked != NULL)
            end(USAGE, "", "more than one word: see keyset --help");
        asked = option != NULL ? option : word;
    }
    if (asked != NULL)
        asked->task();
    else
        answer_script();
    return ANSWERED;
}
