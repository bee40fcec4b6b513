/* The arguments of a subcommand. */

#include <stdio.h>
#include <string.h>

#include "arguments/arguments.h"
#include "arguments/message.h"

/* The options that say how tables are read. Subcommands for user tables leave out the first. */
enum { SYSTEM, DIALECT };
static const struct option READING[] = {
    [SYSTEM] = { 's', "system", NULL, "the files are system tables: a user stands before each command" },
    [DIALECT] = { 0, "dialect", "NAME", "rising, where ranges go from low to high, or wrapping, where 22-3 goes over midnight" },
    { NO_OPTION },
};

/* The names of the dialects, by their numbers. */
static const char *const DIALECTS[] = { [EREMOTHYN_RISING] = "rising", [EREMOTHYN_WRAPPING] = "wrapping" };

static const struct option *reading(const struct command *command)
{
    switch (command->reads) {
    case ALL_TABLES: return READING;
    case USER_TABLES: return READING + DIALECT;
    default: return READING + DIALECT + 1;
    }
}

static void print_list(const struct option *option)
{
    enum { WIDTH = 18 };
    for (; option->name != NULL; option++) {
        int width = option->letter != 0 ? printf("  -%c, --%s", option->letter, option->name) : printf("  --%s", option->name);
        if (option->value != NULL)
            width += printf(" %s", option->value);
        printf("%*s  %s\n", width < WIDTH ? WIDTH - width : 0, "", option->meaning);
    }
}

void print_options(const struct command *command)
{
    print_list(command->options);
    print_list(reading(command));
}

/* Finds the dialect with a name. Any other name is a misuse. */
static bool take_dialect(const char *name, uint64_t *dialect)
{
    for (uint64_t i = 0; i < sizeof DIALECTS / sizeof *DIALECTS; i++) {
        if (strcmp(name, DIALECTS[i]) == 0) {
            *dialect = i;
            return true;
        }
    }
    misuse("unknown dialect '%s': it is %s or %s", name, DIALECTS[0], DIALECTS[1]);
    return false;
}

/* Whether a word is an option, by its letter or by its name, perhaps with = and a value. */
static bool is_option(const char *word, const struct option *option)
{
    if (word[1] != '-')
        return option->letter != 0 && word[1] == option->letter && word[2] == '\0';
    size_t length = strlen(option->name);
    bool is_named = strncmp(word + 2, option->name, length) == 0;
    char after = is_named ? word[2 + length] : '?';
    return is_named && (after == '\0' || (after == '=' && option->value != NULL));
}

/* The option of a list that a word names, or NULL. */
static const struct option *option_of(const struct option *list, const char *word)
{
    while (list->name != NULL && !is_option(word, list))
        list++;
    return list->name != NULL ? list : NULL;
}

/* An option's value: in its own word, or the next word, which is then taken; "" for an option without a value. */
static const char *value_of(const struct option *option, char ***next, char **end)
{
    const char *word = *(*next)++;
    if (option->value == NULL)
        return "";
    const char *sign = word[1] == '-' ? strchr(word, '=') : NULL;
    if (sign != NULL)
        return sign + 1;
    if (*next < end)
        return *(*next)++;
    misuse("%s needs a value: %s", word, option->value);
    return NULL;
}

/* Takes the next word, which is an option, and its value. */
static bool take_option(const struct command *command, char ***next, char **end, struct arguments *arguments)
{
    const struct option *own = option_of(command->options, **next);
    const struct option *shared = option_of(reading(command), **next);
    if (own == NULL && shared == NULL) {
        misuse("unknown option '%s'", **next);
        return false;
    }
    const char *value = value_of(own != NULL ? own : shared, next, end);
    if (value == NULL)
        return false;
    if (own != NULL)
        arguments->values[own - command->options] = value;
    else if (shared == &READING[SYSTEM])
        arguments->rules.kind = EREMOTHYN_SYSTEM_TABLE;
    else
        return take_dialect(value, &arguments->rules.dialect);
    return true;
}

enum taken take_options(const struct command *command, int count, char **words, struct arguments *arguments)
{
    static const struct option HELP = { 'h', "help", NULL, NULL };
    bool ended = false;
    char **end = words + count;
    *arguments = (struct arguments){ 0, words, { NULL }, { EREMOTHYN_USER_TABLE, EREMOTHYN_RISING } };
    for (char **next = words; next < end;) {
        char *word = *next;
        if (ended || word[0] != '-' || word[1] == '\0') {
            words[arguments->count++] = word;
            next++;
        } else if (strcmp(word, "--") == 0) {
            ended = true;
            next++;
        } else if (is_option(word, &HELP)) {
            return HELP_WANTED;
        } else if (!take_option(command, &next, end, arguments)) {
            return MISUSED;
        }
    }
    return TAKEN;
}

int each_file(const struct arguments *arguments, work_on *work)
{
    int worst = DONE;
    for (int i = 0; i < arguments->count; i++) {
        int status = work(arguments->operands[i], arguments);
        if (worst < status)
            worst = status;
    }
    return worst;
}

struct arguments or_input(const struct arguments *arguments)
{
    static char input[] = "-";
    static char *only[] = { input };
    struct arguments files = *arguments;
    if (files.count == 0) {
        files.count = 1;
        files.operands = only;
    }
    return files;
}

int one_file(const struct arguments *arguments, work_on *work)
{
    if (arguments->count > 1)
        return misuse("more than one file is named");
    return work(or_input(arguments).operands[0], arguments);
}
