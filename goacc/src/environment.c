/* The variables of the environment. One with a word that it may not have ends the program, since a run would show less
   than was asked for. A name with this library's prefix that is none of its variables is told. */
#define _GNU_SOURCE
#include <errno.h>
#include <stdio.h>
#include <stdlib.h>
#include <string.h>
#include <unistd.h>

#include "inner.h"

#define PREFIX "LAMWIEST_"
#define END NULL

/* Behind the prefix. The last two are those of this repository's checks. */
static const char *const variables[] = {"HOST", "DEVICE", "LOG", "SCRIPT", "REPORT", "SHADOW", "STRICT", "CHECK",
                                        "WITHOUT", "LEFT_OUT", END};

static bool has_word(const char *const *list, const char *word, size_t len)
{
    while (*list != END && (strncmp(*list, word, len) != 0 || (*list)[len] != '\0')) {
        list++;
    }
    return *list != END;
}

/* Ends the program where a variable has a word that is not in the list. many: it may have several. */
static void want_words(const char *variable, const char *const *list, const char *told, bool many)
{
    const char *text = getenv(variable), *word = text;

    while (word != NULL && *word != '\0') {
        const size_t len = many ? strcspn(word, " ,") : strlen(word);

        if (!has_word(list, word, len)) {
            lwa_unserved("%s is '%s', and may be %s", variable, text, told);
        }
        word += len + strspn(word + len, many ? " ," : "");
    }
}

static void tell_unknown(void)
{
    for (char **entry = environ; *entry != NULL; entry++) {
        const char *name = *entry + strlen(PREFIX);

        if (strncmp(*entry, PREFIX, strlen(PREFIX)) == 0 && !has_word(variables, name, strcspn(name, "="))) {
            fprintf(stderr, "lamwiest: there is no variable %.*s\n", (int)strcspn(*entry, "="), *entry);
        }
    }
}

void lwa_check_environment(void)
{
    static const char *const switches[] = {"0", "1", END}, *const shadows[] = {"0", "1", "all", END};
    static const char *const checks[] = {"0", "1", "all", "error", END};

    tell_unknown();
    want_words(PREFIX "LOG", switches, "0 or 1", false);
    want_words(PREFIX "SHADOW", shadows, "0, 1 or all", false);
    want_words(PREFIX "CHECK", checks, "0, 1, all or error", false);
    want_words(PREFIX "STRICT", lwa_open_names, "words of fill, places, queues and pointers", true);
    if (!lwa_shadow && lwa_named_type() == acc_device_none) {
        lwa_unserved("ACC_DEVICE_TYPE is '%s', and may be host, not_host, nvidia or radeon", getenv("ACC_DEVICE_TYPE"));
    }
    if (lwa_number_of("ACC_DEVICE_NUM", "number of a device", 0) >= LWA_DEVICES && !lwa_shadow) {
        lwa_unserved("there is no device of the number %s; the last one is %d", getenv("ACC_DEVICE_NUM"),
                     LWA_DEVICES - 1);
    }
}

bool lwa_is_on(const char *variable)
{
    const char *word = getenv(variable);

    return word != NULL && strcmp(word, "") != 0 && strcmp(word, "0") != 0;
}

/* Digits alone. */
uint64_t lwa_number_of(const char *variable, const char *what, uint64_t otherwise)
{
    const char *text = getenv(variable);
    uint64_t number;

    if (text == NULL) {
        return otherwise;
    }
    errno = 0;
    number = strtoull(text, NULL, 10);
    if (errno != 0 || text[0] == '\0' || text[strspn(text, "0123456789")] != '\0') {
        lwa_unserved("%s is '%s', which is no %s", variable, text, what);
    }
    return number;
}
