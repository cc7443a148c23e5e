/* The same input and output as schema_cases of tests/cases, up to the first text of which the compiled form is shown, by a plain C reading. Each
   accepted text is read a second time from its record, as there. Nothing here is proved. */
#include "plain_schema.h"

int main(void) {
    static unsigned char input[1 << 16];
    static struct schema first, second;
    int n = fread(input, 1, sizeof input, stdin);
    fill_classes();
    for (int i = 0; n - i >= 2;) {
        int length = input[i] * 256 + input[i + 1], where, again;
        if (n - i - 2 < length) break;
        int number = read_schema(input + i + 2, length, &where, &first);
        if (number) printf("refused %d at %d\n", number, where);
        else {
            if (read_schema(first.bytes, first.size, &again, &second) || memcmp(&first, &second, sizeof first)) printf("no record: ");
            printf("ok %d\n", where);
        }
        i += 2 + length;
    }
    return 0;
}
