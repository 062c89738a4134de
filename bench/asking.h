/* Questions to one book, asked in several ways. */
#ifndef ASKING_H
#define ASKING_H

#include "codes.h"

/* How many questions a book is asked. A book with the most lists is asked as many questions as a
   call takes. */
enum { QUESTIONS = 12 };

/* How they are asked: in one call, in a call each, or by listings of lists that are found in the
   book, anew for each question or once. The last two are in one call too, and about one list alone,
   the first of the book or its last. */
enum way { TOGETHER, EACH, SINGLE, FOUND, FIRST, LAST, WAYS };

/* What they are asked of: a book, which lies in words, and how many bytes and lists it has. The
   zones are its first list, and the samples are dealt to the others. The output has room for all
   pairs. */
struct asking {
    const uint32_t *book;
    size_t bytes, lists;
    uint32_t *out;
    size_t out_words;
};

/* Builds the questions for a way. Each asks for the zones and a list of samples. These lists are
   spread over the book. For first and last, each asks for that one list and itself. The four
   listings take turns. Four questions are fresh, the next four go on after a page of 256 pairs, the
   next four after two such pages, and so on in turn. */
void build_questions(const struct asking *asking, enum way way);

/* Asks them all in a way, and answers how many pairs came of it. It ends the program where one is
   refused or isn't done, or where there are more or fewer pairs than there should be. */
size_t ask_all(const struct asking *asking, enum way way, const struct code *code);

#endif
