/* Answers the run file on standard input, a line for each question; of a text with a fault, tells the fault. */
#include <stdio.h>
#include <zetampuy.h>

/* One byte more than the longest run file has, by which a longer one is told. */
static uint8_t text[65537];

int main(void)
{
    size_t length = fread(text, 1, sizeof text, stdin);
    zetampuy_handle handle = ZETAMPUY_NONE;
    if (ferror(stdin) || !zetampuy_new(&handle))
        return 1;
    uint8_t line[ZETAMPUY_ROOM];
    int32_t questions = zetampuy_questions(&handle, text, length);
    if (questions < 0) {
        int32_t bytes = zetampuy_fault(&handle, text, length, line, sizeof line);
        fwrite(line, 1, (size_t)bytes, stdout);
    }
    for (int32_t number = 1; number <= questions; number++) {
        int32_t bytes = zetampuy_answer(&handle, text, length, (uint32_t)number, line, sizeof line);
        fwrite(line, 1, (size_t)bytes, stdout);
    }
    zetampuy_free(&handle);
    return fflush(stdout) == 0 ? 0 : 1;
}
