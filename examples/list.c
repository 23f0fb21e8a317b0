/*
 * Lists the answer sets of rule books, each given as a file that holds a theory image,
 * and shows the size of each book's flat program.
 *
 *     list BOOK..
 *
 * For each book: its name; then `sets` and their number, and a line for each set (the number
 * of its atoms, then the atoms); then B, the number of rules and the bytes of its flat program,
 * in the fixed form and packed.
 * A refusal is one line: `refused`, number, place. The exit status is 0 if every file was read
 * and nothing was refused, 1 if not, and 2 if no book was named.
 */
#include <stdio.h>
#include "rulebook.h"

/* The longest image, the bytes of 4,096 sets, and the longest program of a book, which is a fixed one. */
enum { LONGEST = 7184, ROOM = 8192, PROGRAM = 65236 };

/* One byte more than the longest image: a file that fills it is too long, and refused by row 5 or an earlier one. */
static uint8_t image[LONGEST + 1];
static uint8_t sets[ROOM];
static uint8_t program[PROGRAM];

static unsigned number_at(const uint8_t *bytes, size_t at)
{
    return bytes[at] | (unsigned)bytes[at + 1] << 8;
}

/* The bytes of the program, which its header states. */
static unsigned long program_length(void)
{
    return number_at(program, 12) | (unsigned long)number_at(program, 14) << 16;
}

static void print_set(unsigned set)
{
    unsigned count = 0;
    for (unsigned atom = 0; atom < 12; atom++)
        count += set >> atom & 1;
    printf("%u", count);
    for (unsigned atom = 0; atom < 12; atom++)
        if (set >> atom & 1)
            printf(" %u", atom);
    putchar('\n');
}

/* Prints the line of a refusal, if the answer is one, and tells whether it is. */
static int refused(struct rulebook_answer answer)
{
    if (answer.number != 0)
        printf("refused %u %zu\n", (unsigned)answer.number, answer.place);
    return answer.number != 0;
}

/* Shows the book whose image has so many bytes, and tells whether a call refused it. */
static int show(size_t length)
{
    if (refused(rulebook_check_theory(image, length)))
        return 1;
    struct rulebook_answer listed = rulebook_list_sets(image, length, sets, sizeof sets);
    int status = refused(listed);
    if (status == 0) {
        printf("sets %zu\n", listed.result);
        for (size_t i = 0; i < listed.result; i++)
            print_set(number_at(sets, 2 * i));
    }
    struct rulebook_answer flat = rulebook_translate(image, length, false, program, sizeof program);
    if (refused(flat))
        return 1;
    unsigned long fixed = program_length();
    if (refused(rulebook_translate(image, length, true, program, sizeof program)))
        return 1;
    printf("program B %u, %zu rules, %lu bytes, packed %lu\n", number_at(program, 2), flat.result, fixed, program_length());
    return status;
}

/* Reads a file and shows the book in it, and tells whether either failed. */
static int show_file(const char *name)
{
    FILE *file = fopen(name, "rb");
    if (file == NULL) {
        perror(name);
        return 1;
    }
    size_t length = fread(image, 1, sizeof image, file);
    int failed = ferror(file);
    if (failed)
        perror(name);
    fclose(file);
    if (failed)
        return 1;
    printf("%s\n", name);
    return show(length);
}

int main(int argc, char **argv)
{
    if (argc < 2) {
        fprintf(stderr, "usage: list BOOK..\n");
        return 2;
    }
    int status = 0;
    for (int i = 1; i < argc; i++)
        if (show_file(argv[i]) != 0)
            status = 1;
    if (fflush(stdout) != 0 || ferror(stdout)) {
        perror("standard output");
        status = 1;
    }
    return status;
}
