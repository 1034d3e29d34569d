/* A script has each line as soon as it is written, so that a program that breaks off leaves what it did. */
#include "show.h"

#include <string.h>
#include <unistd.h>

int main(void)
{
    char made[] = "script_linesXXXXXX", line[256];
    const char *name = getenv("LAMWIEST_SCRIPT");
    int a[4] = {0}, entered = 0;
    FILE *script;

    if (name == NULL) {
        close(mkstemp(made));
        setenv("LAMWIEST_SCRIPT", made, 1);
    }
#pragma acc enter data copyin(a)
    script = fopen(getenv("LAMWIEST_SCRIPT"), "r");
    while (fgets(line, sizeof line, script) != NULL) {
        entered += strncmp(line, "enter data copyin(", 18) == 0;
    }
    fclose(script);
    if (name == NULL) {
        unlink(made);
    }
    printf("%d\n", entered);
#pragma acc exit data delete(a)
    return 0;
}
