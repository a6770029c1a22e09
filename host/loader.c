/*
 * A small loader, as a game has one: it makes saves, and loads them as they are, damaged and cut. Behind it every function of the header is asked for every
 * number that it gives, and on both sides of each limit by the header's name for it. What it prints is compared with loader.expected, which was written by hand
 * from the rules; a header with another number, limit or reader would change it.
 */
#include <stdio.h>
#include <string.h>

#include "claybobbin.h"

/* What a number says, by the header's names. */
static const char *meaning(int number)
{
    switch (number) {
    case CLAYBOBBIN_DONE: return "done";
    case CLAYBOBBIN_ALPHABET: return "there is no such alphabet";
    case CLAYBOBBIN_LONG: return "too long";
    case CLAYBOBBIN_MISMATCH: return "the lengths do not match";
    case CLAYBOBBIN_CARD: return "a card outside the alphabet";
    case CLAYBOBBIN_IMPOSSIBLE: return "no row has this echo here";
    case CLAYBOBBIN_HIDDEN: return "this echo should be longer";
    case CLAYBOBBIN_FULL: return "no letter is left for this 0";
    case CLAYBOBBIN_ROOM: return "no room for the sheet";
    case CLAYBOBBIN_LAST: return "this array is the last";
    case CLAYBOBBIN_DIFFERS: return "the echoes differ from here";
    default: return "a number that the header does not name";
    }
}

/* ---- the loader */

/* A save has the size of the alphabet in one byte, the number n of cards in two, the n cards, and their n echoes in two bytes each. Low bytes come first. */
enum { HEAD = 3 };

static unsigned char save[HEAD + 3 * CLAYBOBBIN_LIMIT], row[CLAYBOBBIN_LIMIT], text[CLAYBOBBIN_SHEET_LIMIT];
static unsigned short saved[CLAYBOBBIN_LIMIT], echoes[CLAYBOBBIN_LIMIT];

static size_t number_at(const unsigned char *bytes)
{
    return bytes[0] + 256 * (size_t)bytes[1];
}

static void put_number(unsigned char *bytes, size_t number)
{
    bytes[0] = (unsigned char)(number % 256);
    bytes[1] = (unsigned char)(number / 256);
}

/* Makes the save of a row of at most CLAYBOBBIN_LIMIT cards. Its length; 0 where there is none, since a card is outside the alphabet. */
static size_t make(size_t a, const char *cards)
{
    size_t n = strlen(cards), i;

    if (claybobbin_number(claybobbin_echoes(a, (const unsigned char *)cards, n, echoes, n)) != CLAYBOBBIN_DONE)
        return 0;
    save[0] = (unsigned char)a;
    put_number(save + 1, n);
    memcpy(save + HEAD, cards, n);
    for (i = 0; i < n; i++)
        put_number(save + HEAD + n + 2 * i, echoes[i]);
    return HEAD + 3 * n;
}

/* The row of these saved echoes, which stand: the saved cards or, where they do not have the echoes, the least row that has. That need not be the row that was
   lost, but it has the same sheet. */
static void restore(size_t a, const unsigned char *cards, size_t n)
{
    claybobbin_answer computed = claybobbin_echoes(a, cards, n, echoes, n), rebuilt;

    if (claybobbin_number(computed) != CLAYBOBBIN_DONE)
        printf("%s, at place %lu; ", meaning(claybobbin_number(computed)), (unsigned long)claybobbin_place(computed));
    else if (memcmp(echoes, saved, n * sizeof *saved) != 0)
        printf("the cards have other echoes; ");
    else {
        memcpy(row, cards, n);
        printf("welcome back\n");
        return;
    }
    rebuilt = claybobbin_rebuild(a, saved, n, row, n);
    printf("rebuilding is %s: %.*s\n", meaning(claybobbin_number(rebuilt)), (int)n, (const char *)row);
}

/* Loads the save, so many bytes of it, and prints the sheet of its row. Where its echoes do not stand, it has none. */
static void load(const char *what, size_t length)
{
    size_t n, rest, i;
    claybobbin_answer answer;

    printf("%s: ", what);
    if (length < HEAD) {
        printf("this is no save\n");
        return;
    }
    n = number_at(save + 1);
    rest = length - HEAD < n ? 0 : length - HEAD - n; /* the bytes of echoes: where they are not 2 n judging says so, and reads none */
    answer = claybobbin_judge(save[0], n, save + length - rest, rest);
    if (claybobbin_number(answer) != CLAYBOBBIN_DONE) {
        printf("number %d, %s, place %lu\n", claybobbin_number(answer), meaning(claybobbin_number(answer)), (unsigned long)claybobbin_place(answer));
        return;
    }
    for (i = 0; i < n; i++)
        saved[i] = (unsigned short)number_at(save + HEAD + n + 2 * i);
    restore(save[0], save + HEAD, n);
    answer = claybobbin_sheet(save[0], row, n, text, sizeof text);
    fwrite(text, 1, claybobbin_value(answer), stdout);
}

/* Makes the save of a row and loads it with this byte at this index. */
static void spoil(const char *what, size_t a, const char *cards, size_t index, size_t byte)
{
    size_t length = make(a, cards);

    save[index] = (unsigned char)byte;
    load(what, length);
}

static void load_saves(void)
{
    spoil("a good save", 3, "abaab", 0, 3);
    spoil("card 3 is z", 3, "abaab", HEAD + 2, 'z');
    spoil("card 3 is b", 3, "abaab", HEAD + 2, 'b'); /* abbab has 0 0 0 1 2 */
    spoil("card 3 is C", 3, "abc", HEAD + 2, 'C'); /* 0 0 0: the third card need only differ from the first, and b is the least that does */
    spoil("echo 5 is 3", 3, "abaab", HEAD + 5 + 8, 3); /* behind 0 0 1 1 only 2, 1 and 0 are possible */
    spoil("echo 2 is 257", 2, "aa", HEAD + 2 + 3, 1); /* its low byte alone would stand */
    /* 001's example, 0 0 1 1 2 3 2 3 4 5 6 and then 0: over two letters, and with 2 or 3 in the place of that 0 */
    spoil("two letters for three", 3, "abaababaabac", 0, 2);
    spoil("echo 12 is 2", 3, "abaababaabac", HEAD + 12 + 22, 2);
    spoil("echo 12 is 3", 3, "abaababaabac", HEAD + 12 + 22, 3);
    spoil("no letters", 3, "abaab", 0, 0);
    spoil("4101 cards for 5", 3, "abaab", 2, CLAYBOBBIN_LIMIT / 256);
    spoil("6 cards for 5", 3, "abaab", 1, 6);
    spoil("no cards", 1, "", 0, 1);
    load("a byte is lost", make(3, "abaab") - 1);
    load("all echoes and a card are lost", HEAD + 4);
    load("nearly all is lost", HEAD - 1);
}

/* ---- every function, every number, both sides of each limit */

enum { MOST = CLAYBOBBIN_LIMIT, OVER = CLAYBOBBIN_LIMIT + 1 };

/* A row as the two arguments that it is. */
#define ROW(s) (const unsigned char *)(s), strlen(s)

/* One card a over the limit, the string with as many as may be, and their echoes: 0, 1, 2 and so on. */
static char over[OVER + 1], *const most = over + 1;
static unsigned short rising[OVER], numbers[OVER];
static unsigned char rising_bytes[2 * OVER], cards[OVER];

/* Buffers before a call: all dots; the entries of e, or all 7. */
#define DOTS(buffer, n) (unsigned char *)memset(buffer, '.', n)

static unsigned short *lend(const unsigned short *e, size_t n)
{
    size_t i;

    for (i = 0; i < n; i++)
        numbers[i] = e == NULL ? 7 : e[i];
    return numbers;
}

static void tell(const char *what, claybobbin_answer answer)
{
    printf("%s: %d, %s; place %lu, value %lu\n", what, claybobbin_number(answer), meaning(claybobbin_number(answer)), (unsigned long)claybobbin_place(answer),
        (unsigned long)claybobbin_value(answer));
}

/* The answer, and what the call left in the buffer: the first six entries and the last. */
static void tell_numbers(const char *what, claybobbin_answer answer, size_t n)
{
    size_t i;

    tell(what, answer);
    for (i = 0; i < n; i++)
        if (i < 6 || i + 1 == n)
            printf(" %u", (unsigned)numbers[i]);
    printf("\n");
}

static void tell_cards(const char *what, claybobbin_answer answer, size_t n)
{
    tell(what, answer);
    printf(" %.*s, and the last is %c\n", n < 6 ? (int)n : 6, (const char *)cards, cards[n - 1]);
}

/* The answer, and how many bytes of the buffer are still dots. */
static void tell_sheet(const char *what, size_t a, const char *cards_of, size_t room)
{
    size_t stay = 0, i;

    tell(what, claybobbin_sheet(a, ROW(cards_of), DOTS(text, sizeof text), room));
    for (i = 0; i < room; i++)
        stay += text[i] == '.';
    printf(" %lu bytes stay\n", (unsigned long)stay);
}

static void tell_count(size_t a, size_t n)
{
    claybobbin_answer counted = claybobbin_count(a, n);
    int number = claybobbin_count_number(counted);

    printf("count of %lu over %lu: %d, %s; %lu\n", (unsigned long)n, (unsigned long)a, number, meaning(number), claybobbin_count_value(counted));
}

typedef claybobbin_answer table(size_t a, const unsigned char *row, size_t row_length, unsigned short *out, size_t out_length);

static void tables(table *f)
{
    tell_numbers("of aab", f(2, ROW("aab"), lend(NULL, 3), 3), 3);
    tell_numbers("of aab into 2", f(2, ROW("aab"), lend(NULL, 2), 2), 2);
    tell_numbers("of abc over 2", f(2, ROW("abc"), lend(NULL, 3), 3), 3);
    tell_numbers("of az over 26", f(CLAYBOBBIN_LETTERS, ROW("az"), lend(NULL, 2), 2), 2);
    tell_numbers("of az over 27", f(CLAYBOBBIN_LETTERS + 1, ROW("az"), lend(NULL, 2), 2), 2);
    tell_numbers("of 4096 a", f(1, ROW(most), lend(NULL, MOST), MOST), MOST);
    tell_numbers("of 4097 a", f(1, ROW(over), lend(NULL, OVER), OVER), OVER);
}

static void rows(void)
{
    printf("Echoes\n");
    tables(claybobbin_echoes);
    printf("Reach\n");
    tables(claybobbin_reach);
    printf("Looks\n");
    tell("of abaab over 3", claybobbin_looks(3, ROW("abaab")));
    tell("of 4096 a", claybobbin_looks(1, ROW(most)));
    over[MOST] = 'b'; /* one look each at places 2 to 4095, and at the last place one for each value from 4094 down to 0: 4094 + 4095 */
    tell("of 4095 a and a b", claybobbin_looks(2, ROW(most)));
    tell("of the same over 1", claybobbin_looks(1, ROW(most)));
    over[MOST] = 'a';
    tell("of 4097 a", claybobbin_looks(1, ROW(over)));
    tell("over 0", claybobbin_looks(0, ROW("")));
    printf("Sheet\n");
    tell_sheet("of abb over 3", 3, "abb", CLAYBOBBIN_SHEET_LIMIT); /* its five lines have 10, 11, 12, 8 and 8 bytes */
    tell_sheet("of abc into as many bytes", 3, "abc", 49);
    tell_sheet("of abc into one less", 3, "abc", 48);
    tell_sheet("of abc over 2", 2, "abc", 49);
    tell_sheet("of abc over 27", CLAYBOBBIN_LETTERS + 1, "abc", 49);
    tell_sheet("of 4096 a over 26, the longest", CLAYBOBBIN_LETTERS, most, CLAYBOBBIN_SHEET_LIMIT); /* 14, 19375, 19379, 19376 and 11 */
    tell_sheet("of 4096 a into one less", CLAYBOBBIN_LETTERS, most, 58154);
    tell_sheet("of 4097 a", CLAYBOBBIN_LETTERS, over, CLAYBOBBIN_SHEET_LIMIT);
    printf("Guess\n");
    tell("abb at abc", claybobbin_guess(3, ROW("abc"), ROW("abb"))); /* both have 0 0 0 */
    tell("abaac at abaab", claybobbin_guess(3, ROW("abaab"), ROW("abaac"))); /* 0 0 1 1 0 at 0 0 1 1 2 */
    tell("ab at abc", claybobbin_guess(3, ROW("abc"), ROW("ab")));
    tell("zbc at abz", claybobbin_guess(3, ROW("abz"), ROW("zbc"))); /* the hidden row is looked at first */
    tell("azc at abc", claybobbin_guess(3, ROW("abc"), ROW("azc")));
    tell("4096 a at 4096 a", claybobbin_guess(1, ROW(most), ROW(most)));
    tell("4097 a at 4096 a", claybobbin_guess(1, ROW(most), ROW(over)));
    tell("over 0", claybobbin_guess(0, ROW("a"), ROW("a")));
    printf("Strips\n");
    tell("closing abaab", claybobbin_closing(ROW("abaab")));
    tell("closing #!#", claybobbin_closing(ROW("#!#")));
    tell("closing 4096 a", claybobbin_closing(ROW(most)));
    tell("closing 4097 a", claybobbin_closing(ROW(over)));
    tell("joining xxab and abyy", claybobbin_joining(ROW("xxab"), ROW("abyy")));
    tell("joining ab and cd", claybobbin_joining(ROW("ab"), ROW("cd")));
    tell("joining 4096 a and as many", claybobbin_joining(ROW(most), ROW(most)));
    tell("joining 4096 a and 4097", claybobbin_joining(ROW(most), ROW(over)));
}

static void arrays(void)
{
    /* 0 0 is 7 over one letter, which gives 1 there; 0 2 is 5, since 1 is the greatest that place 2 has; 0 1 1 is 6, since an a there makes it 2 */
    static const unsigned short zeros[] = {0, 0, 0}, two[] = {0, 2}, hidden[] = {0, 1, 1}, late[] = {0, 0, 0, 1};

    printf("Judge\n");
    tell("0 1 2 over 26", claybobbin_judge(CLAYBOBBIN_LETTERS, 3, rising_bytes, 6));
    tell("0 1 2 over 27", claybobbin_judge(CLAYBOBBIN_LETTERS + 1, 3, rising_bytes, 6));
    tell("0 1 2 over 259", claybobbin_judge(259, 3, rising_bytes, 6));
    tell("0 1 2 and a byte", claybobbin_judge(1, 3, rising_bytes, 7));
    tell("4096 echoes", claybobbin_judge(1, MOST, rising_bytes, 2 * MOST));
    tell("4097 echoes", claybobbin_judge(1, OVER, rising_bytes, 2 * OVER));
    tell("2^63 echoes in no bytes", claybobbin_judge(1, (size_t)1 << 63, NULL, 0));
    printf("Rebuild\n");
    tell_cards("0 0 0 over 3", claybobbin_rebuild(3, zeros, 3, DOTS(cards, 3), 3), 3);
    tell_cards("0 0 0 into 2", claybobbin_rebuild(3, zeros, 3, DOTS(cards, 2), 2), 2);
    tell_cards("0 0 0 over 1", claybobbin_rebuild(1, zeros, 3, DOTS(cards, 3), 3), 3);
    tell_cards("0 2 over 2", claybobbin_rebuild(2, two, 2, DOTS(cards, 2), 2), 2);
    tell_cards("0 1 1 over 2", claybobbin_rebuild(2, hidden, 3, DOTS(cards, 3), 3), 3);
    tell_cards("0 0 0 over 27", claybobbin_rebuild(CLAYBOBBIN_LETTERS + 1, zeros, 3, DOTS(cards, 3), 3), 3);
    tell_cards("4096 echoes", claybobbin_rebuild(1, rising, MOST, DOTS(cards, MOST), MOST), MOST);
    tell_cards("4097 echoes", claybobbin_rebuild(1, rising, OVER, DOTS(cards, OVER), OVER), OVER);
    printf("First\n"); /* abb has 0 0 0; over one letter there is one row, and so one array */
    tell_numbers("of 3 over 2", claybobbin_first(2, 3, lend(NULL, 3), 3), 3);
    tell_numbers("of 3 into 4", claybobbin_first(2, 3, lend(NULL, 4), 4), 4);
    tell_numbers("of 3 over 27", claybobbin_first(CLAYBOBBIN_LETTERS + 1, 3, lend(NULL, 3), 3), 3);
    tell_numbers("of 4096 over 1", claybobbin_first(1, MOST, lend(NULL, MOST), MOST), MOST);
    tell_numbers("of 4097", claybobbin_first(1, OVER, lend(NULL, OVER), OVER), OVER);
    printf("Next\n"); /* 0 0 1 0 is that of abac, and needs three letters; 0 1 2 is the greatest array of three, as 0 1 2 .. is of any length */
    tell_numbers("of 0 0 0 1 over 3", claybobbin_next(3, lend(late, 4), 4), 4);
    tell_numbers("of 0 0 0 1 over 2", claybobbin_next(2, lend(late, 4), 4), 4);
    tell_numbers("of 0 1 2 over 2", claybobbin_next(2, lend(rising, 3), 3), 3);
    tell_numbers("of 0 2 over 2", claybobbin_next(2, lend(two, 2), 2), 2);
    tell_numbers("of 0 1 1 over 2", claybobbin_next(2, lend(hidden, 3), 3), 3);
    tell_numbers("of 0 0 over 1", claybobbin_next(1, lend(zeros, 2), 2), 2);
    tell_numbers("of 0 0 over 27", claybobbin_next(CLAYBOBBIN_LETTERS + 1, lend(zeros, 2), 2), 2);
    tell_numbers("of 4096 echoes", claybobbin_next(1, lend(rising, MOST), MOST), MOST);
    tell_numbers("of 4097 echoes", claybobbin_next(1, lend(rising, OVER), OVER), OVER);
    printf("Count\n");
    tell_count(1, 20);
    tell_count(3, 4);
    tell_count(CLAYBOBBIN_LETTERS, 10);
    tell_count(5, 0);
    tell_count(2, CLAYBOBBIN_COUNT_LIMIT);
    tell_count(2, CLAYBOBBIN_COUNT_LIMIT + 1);
    tell_count(CLAYBOBBIN_LETTERS + 1, CLAYBOBBIN_COUNT_LIMIT + 1);
}

int main(void)
{
    size_t i;

    memset(over, 'a', OVER);
    for (i = 0; i < OVER; i++) {
        rising[i] = (unsigned short)i;
        put_number(rising_bytes + 2 * i, i);
    }
    load_saves();
    rows();
    arrays();
    return 0;
}
