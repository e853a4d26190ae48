/*
 * Calls every function of zetampuy.h where it has to answer, to find nothing and to refuse, and looks at what is returned and at
 * all bytes of the buffer; and makes and frees so many reckoners that what is not freed would be missed. Then it answers the run
 * files on standard input, each behind a line with its length and its name, as the program `cases` does.
 */
#include <stdio.h>
#include <stdlib.h>
#include <string.h>
#include <zetampuy.h>

#define FILL '#'

static const char run[] = "RUN 1\nF 1000\nPUL 2\n0 40000\n400 20000\nVEH 2\nL 1000 400 1\nW 600 200 1\n"
                          "SEC 2\n1500 0 0 0 0\n1500 80 0 0 0\nASK 3\nS 0 100 10\nM 200 600\nS 2500 100 10\n";
static const char fault[] = "RUN 1\nF 399\n";

static uint8_t buffer[2 * ZETAMPUY_ROOM];
static int wrong;

static void clear(void)
{
    memset(buffer, FILL, sizeof buffer);
}

/* A call returned what it has to, and the buffer has the line at its head and is filled from there on. */
static void expect(const char *call, int32_t told, int32_t wanted, const char *line)
{
    size_t length = strlen(line);
    int kept = told == wanted && memcmp(buffer, line, length) == 0;
    for (size_t i = length; i < sizeof buffer; i++)
        kept = kept && buffer[i] == FILL;
    if (!kept) {
        fprintf(stderr, "%s returned %d, and %d is wanted, with \"%s\"\n", call, told, wanted, line);
        wrong = 1;
    }
    clear();
}

#define TEXT(t) (const uint8_t *)(t), sizeof(t) - 1
#define ANSWER(text, number, room) "answer " #number " of " #text, zetampuy_answer(&handle, TEXT(text), number, buffer, room)
#define FAULT(text, room) "fault of " #text, zetampuy_fault(&handle, TEXT(text), buffer, room)
#define QUESTIONS(text) "questions of " #text, zetampuy_questions(&handle, TEXT(text))

static void look_at_returns(void)
{
    zetampuy_handle handle = ZETAMPUY_NONE;
    clear();
    expect(QUESTIONS(run), ZETAMPUY_NO_RECKONER, "");
    expect(ANSWER(run, 1, ZETAMPUY_ROOM), ZETAMPUY_NO_RECKONER, "");
    expect(FAULT(fault, ZETAMPUY_ROOM), ZETAMPUY_NO_RECKONER, "");
    zetampuy_free(&handle);
    expect("new", zetampuy_new(&handle), true, "");
    expect("new again", zetampuy_new(&handle), true, "");
    expect("made", handle.made, true, "");

    expect(QUESTIONS(run), 3, "");
    expect(QUESTIONS(fault), -6, "");
    expect(QUESTIONS(""), -16, "");

    expect(ANSWER(run, 1, ZETAMPUY_ROOM), 19, "1 OK 24917 74250 1\n");
    expect(ANSWER(run, 3, ZETAMPUY_ROOM), 7, "3 NO 9\n");
    expect(ANSWER(run, 2, sizeof buffer), 11, "2 OK 26000\n");
    expect(ANSWER(run, 0, ZETAMPUY_ROOM), 0, "");
    expect(ANSWER(run, 4, ZETAMPUY_ROOM), 0, "");
    expect(ANSWER(run, UINT32_MAX, ZETAMPUY_ROOM), 0, "");
    expect(ANSWER(run, 1, ZETAMPUY_ROOM - 1), ZETAMPUY_SHORT_BUFFER, "");
    expect(ANSWER(run, 1, 0), ZETAMPUY_SHORT_BUFFER, "");
    expect(ANSWER(fault, 1, ZETAMPUY_ROOM), -6, "");
    expect(ANSWER(fault, 1, ZETAMPUY_ROOM - 1), ZETAMPUY_SHORT_BUFFER, "");
    expect(ANSWER("", 1, ZETAMPUY_ROOM), -16, "");

    expect(FAULT(fault, ZETAMPUY_ROOM), 16, "FAULT SHEET 2 6\n");
    expect(FAULT("", sizeof buffer), 16, "FAULT TEXT 1 16\n");
    expect(FAULT(run, ZETAMPUY_ROOM), 0, "");
    expect(FAULT(run, ZETAMPUY_ROOM - 1), ZETAMPUY_SHORT_BUFFER, "");
    expect(FAULT(fault, ZETAMPUY_ROOM - 1), ZETAMPUY_SHORT_BUFFER, "");

    zetampuy_free(&handle);
    expect("made after free", handle.made, false, "");
    expect(QUESTIONS(run), ZETAMPUY_NO_RECKONER, "");
}

/* Makes far more reckoners than memory holds at once, each freed before the next is made, or by making the next. */
static void look_at_memory(void)
{
    zetampuy_handle handle = ZETAMPUY_NONE;
    for (int i = 0; i < 100000 && !wrong; i++) {
        if (!zetampuy_new(&handle)) {
            fprintf(stderr, "no memory for reckoner %d\n", i);
            wrong = 1;
        }
        if (i % 2 == 0)
            zetampuy_free(&handle);
    }
    zetampuy_free(&handle);
}

static void answer(zetampuy_handle *handle, const uint8_t *text, size_t length)
{
    uint8_t line[ZETAMPUY_ROOM];
    int32_t questions = zetampuy_questions(handle, text, length);
    if (questions < 0)
        fwrite(line, 1, (size_t)zetampuy_fault(handle, text, length, line, sizeof line), stdout);
    for (int32_t number = 1; number <= questions; number++)
        fwrite(line, 1, (size_t)zetampuy_answer(handle, text, length, (uint32_t)number, line, sizeof line), stdout);
    if (questions == 0)
        puts("nothing");
}

int main(void)
{
    look_at_returns();
    look_at_memory();
    zetampuy_handle handle = ZETAMPUY_NONE;
    if (!zetampuy_new(&handle))
        return 1;
    char name[256];
    size_t length;
    while (scanf("%zu %255[^\n]", &length, name) == 2) {
        uint8_t *text = malloc(length + 2);
        if (text == NULL || fread(text, 1, length + 2, stdin) != length + 2)
            return 1;
        printf("%s: ", name);
        answer(&handle, text + 1, length);
        free(text);
    }
    zetampuy_free(&handle);
    return fflush(stdout) != 0 || wrong;
}
