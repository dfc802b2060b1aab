// Pseudo text by the specification's grammar of text strings: comments are pieces of one pool of 300 MB of sentences.
#include "population.h"
#include <stdlib.h>
#include <string.h>

enum { POOL = 300 * 1024 * 1024 };
static char *pool;

// (each word of the grammar has at most 16 bytes, and room for as many follows it)
static char *add_word(char *at, const Words *words) {
    int place = choose(words, SENTENCES);
    memcpy(at, words->word[place], 16);
    return at + words->length[place];
}

static const Words *words_of(char kind) {
    switch (kind) {
    case 'N':
        return &nouns;
    case 'J':
        return &adjectives;
    case 'D':
        return &adverbs;
    case 'V':
        return &verbs;
    default:
        return &auxiliaries;
    }
}

// A noun or verb phrase, with a space after each word; a comma takes the space's place.
static char *add_phrase(char *at, const Words *forms) {
    for (const char *kind = forms->word[choose(forms, SENTENCES)]; *kind; kind++) {
        if (*kind == ',') {
            at[-1] = ',';
        } else {
            at = add_word(at, words_of(*kind));
        }
        *at++ = ' ';
    }
    return at;
}

static char *add_sentence(char *at) {
    for (const char *kind = sentences.word[choose(&sentences, SENTENCES)]; *kind; kind++)
        switch (*kind) {
        case 'N':
            at = add_phrase(at, &noun_phrases);
            break;
        case 'V':
            at = add_phrase(at, &verb_phrases);
            break;
        case 'P':
            at = add_word(at, &prepositions);
            memcpy(at, " the ", 5);
            at = add_phrase(at + 5, &noun_phrases);
            break;
        case 'T':
            at = add_word(at - 1, &terminators);
            break;
        }
    *at++ = ' ';
    return at;
}

void make_sentences(void) {
    if (!(pool = malloc(POOL + 1024)))
        fail("no memory", "");
    for (char *at = pool; at < pool + POOL;)
        at = add_sentence(at);
}

const char *comment_text(int stream, int mean, size_t *length) {
    int least = mean * 4 / 10, most = mean * 16 / 10;
    const char *text = pool + draw(stream, 0, POOL - most);
    *length = (size_t)draw(stream, least, most);
    return text;
}

void put_comment(Output *out, int stream, int mean) {
    size_t length;
    const char *text = comment_text(stream, mean, &length);
    put_bytes(out, text, length), put_byte(out, '|');
}
