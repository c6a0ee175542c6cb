/*
 * pgn.h: reads and writes games of chess in Portable Game Notation (PGN).
 *
 * Link with libpgn_c, shared or static. docs/LIBRARY.md has a sample, the limits, and what is
 * proved.
 *
 * No function allocates, keeps anything from call to call, or writes to other memory than its
 * buffer or its struct. Several threads may call at once, with buffers of their own; they may share
 * what is only read.
 *
 * Conditions on a caller. All that is proved rests on them:
 *
 *  1. A pointer with a length or a capacity points to that many bytes of one object, at most
 *     2^63 - 1, for the whole call. It is not null, also where the length is 0. A pointer to a
 *     struct points to one.
 *  2. A buffer or a struct shares no byte with a text of the same call.
 *  3. No other thread writes a text during the call, or reads or writes the buffer or the struct.
 *  4. The stack has 256 KiB left. A call takes less than half of that.
 *
 * The library that rt builds, which is the proved one, checks none of them. The one that Cargo
 * builds takes a null pointer with length 0. For any other null pointer its status is PGN_NO_MODE,
 * the other fields of the result are 0, and nothing is read or written.
 *
 * A text need not end with a zero, and may have any bytes.
 */
#ifndef PGN_H
#define PGN_H

#include <stddef.h>
#include <stdint.h>

#ifdef __cplusplus
extern "C" {
#endif

/* The version of this header: 10,000 * major + 100 * minor + patch. */
#define PGN_VERSION "0.1.0"
#define PGN_VERSION_NUMBER 100

/* What the `status` of a result says. */
enum {
    PGN_OK = 0,     /* done */
    PGN_FAULT = 1,  /* the text has a fault */
    PGN_FULL = 2,   /* the buffer is too short */
    PGN_NO_MODE = 3, /* an argument has no such value, or is null; nothing was written */
    PGN_NO_GAME = 4, /* no game is left in the text */
    PGN_MORE = 5,    /* a fault if the text ends here: a caller who reads in chunks gives more */
    PGN_BAD_PLACE = 6 /* a place or a length is too large, as the call says; nothing was written */
};

/* The modes of pgn_convert, pgn_next_game and pgn_read_game. */
enum {
    PGN_FULL_FORMAT = 0,   /* export format (PGN 3.2) */
    PGN_REDUCED_FORMAT = 1 /* reduced export format (PGN 3.2.4) */
};

/* The notations of moves, for pgn_san and pgn_line. */
enum {
    PGN_SAN = 0, /* standard algebraic notation, as a PGN has it: Nf3 (PGN 8.2.3) */
    PGN_UCI = 1  /* that of engines: g1f3 (Universal Chess Interface, "Move format") */
};

/* The same, for pgn_line, where the line of a ply is the FEN alone. */
enum { PGN_SAN_FEN = 2, PGN_UCI_FEN = 3 };

/* The same, where the line of a ply is the key of the position, as pgn_key writes it. */
enum { PGN_SAN_KEY = 4, PGN_UCI_KEY = 5 };

/* The fields of a move's line, for pgn_items, which takes their sum. */
enum {
    PGN_ITEM_SAN = 1, /* its SAN */
    PGN_ITEM_UCI = 2, /* its UCI */
    PGN_ITEM_FEN = 4, /* the FEN of the position after it */
    PGN_ITEM_KEY = 8  /* the key of that position, as pgn_key writes it */
};

/* What a missing Result counts as, for pgn_next_game and pgn_read_game. */
enum {
    PGN_RESULT_UNKNOWN = 0,   /* as *, like pgn_convert and `export` */
    PGN_RESULT_FROM_MARKER = 1 /* as the game's termination marker, like `export --checked` */
};

/* The four termination markers, which are also the values of Result. */
enum { PGN_WHITE_WINS = 1, PGN_BLACK_WINS = 2, PGN_DRAW = 3, PGN_UNKNOWN = 4 };

/* The result of pgn_check and pgn_convert. */
typedef struct pgn_result {
    uint32_t status;      /* PGN_OK, PGN_FAULT, PGN_FULL or PGN_NO_MODE */
    uint32_t fault;       /* the number: 1 to 42, 51 or 52, as in docs/PROFILE.md; 0: none */
    uint64_t place;       /* the byte offset of the fault in the text, from 0 */
    size_t written;       /* how many bytes of the buffer were written, from its front */
    uint64_t games;       /* the number of games; 0 unless PGN_OK */
    uint64_t plies;       /* the number of their plies, without variations; 0 unless PGN_OK */
    size_t reason_at;     /* where the reason begins in the message */
    uint8_t message[104]; /* "byte 77: move is not legal", ended by a zero; "" without a fault */
} pgn_result;

/* The result of pgn_fen_normalize and pgn_key. */
typedef struct pgn_text {
    uint32_t status; /* PGN_OK, PGN_FAULT, PGN_FULL, or PGN_NO_MODE for a null pointer */
    uint32_t field;  /* the field at fault, 1 to 6; 7: the six break a rule together; 0: none */
    size_t length;   /* the length of the text, also with PGN_FULL; 0 with PGN_FAULT */
} pgn_text;

/* The result of pgn_san. */
typedef struct pgn_move {
    uint32_t status; /* PGN_OK, PGN_FAULT or PGN_NO_MODE */
    uint32_t fault;  /* the fault's number: 26, 33, 34, 35 or 36; 0: none */
    uint32_t field;  /* with fault 26 the field of the FEN that is at fault, 1 to 7; else 0 */
    uint8_t san[8];  /* PGN_OK: the move's SAN, ended by a zero; else "" */
    uint8_t uci[8];  /* PGN_OK: the move in UCI, ended by a zero; else "" */
    uint8_t fen[96]; /* PGN_OK: the FEN of the position after it, ended by a zero; else "" */
} pgn_move;

/* The result of pgn_line. */
typedef struct pgn_plies {
    uint32_t status; /* PGN_OK, PGN_FAULT, PGN_FULL or PGN_NO_MODE */
    uint32_t fault;  /* the fault's number: 26, 33, 34, 35, 36 or 51; 0: none */
    uint32_t field;  /* with fault 26 the field of the FEN that is at fault, 1 to 7; else 0 */
    uint64_t place;  /* with fault 33 to 36 the byte offset of the word that names no move, with 51
                        that of the ply that there is no room for; else 0 */
    size_t written;  /* how many bytes of the buffer were written, from its front */
    size_t plies;    /* the number of plies whose lines these are */
} pgn_plies;

/* The result of pgn_next_game and pgn_read_game. */
typedef struct pgn_game {
    uint32_t status;      /* PGN_OK: a game; PGN_NO_GAME, PGN_FAULT, PGN_MORE, PGN_FULL, ... */
    uint32_t fault;       /* the fault's number with PGN_FAULT, PGN_MORE and PGN_FULL; else 0 */
    uint64_t place;       /* the byte offset of the fault in the text; else 0 */
    size_t written;       /* how many bytes of the buffer were written, from its front */
    size_t end;           /* PGN_OK: the place after the game, from where the next begins; else 0 */
    size_t marker_at;     /* PGN_OK: the place of the game's termination marker; else 0 */
    uint64_t plies;       /* PGN_OK: the game's plies, without variations; else 0 */
    size_t reason_at;     /* where the reason begins in the message */
    uint32_t marker;      /* PGN_OK: which marker; else 0 */
    uint8_t message[104]; /* "byte 77: move is not legal", ended by a zero; "" without a fault */
    uint8_t fen[96];      /* PGN_OK: the game's last position. With fault 34, 35 or 36: the position
                             in which the move was rejected. Ended by a zero; "" otherwise */
} pgn_game;

/* The result of pgn_items. */
typedef struct pgn_item_lines {
    uint32_t status;      /* PGN_OK: a whole game; PGN_FAULT, PGN_FULL, PGN_NO_GAME, ... */
    uint32_t fault;       /* the fault's number with PGN_FAULT, 51 with PGN_FULL; else 0 */
    uint64_t place;       /* PGN_FAULT: the byte offset of the fault in the text; else 0 */
    size_t written;       /* how many bytes of the buffer were written, from its front */
    uint64_t next_item;   /* the number of the item after those that were written */
    size_t end;           /* PGN_OK: the place after the game, from where the next begins; else 0 */
    size_t reason_at;     /* where the reason begins in the message */
    uint8_t message[104]; /* "byte 77: move is not legal", ended by a zero; "" without a fault */
} pgn_item_lines;

/* The result of pgn_tag_at. */
typedef struct pgn_tag {
    uint32_t status;     /* PGN_OK, or PGN_FAULT: the line is no tag pair, and all else is 0. Or
                            PGN_NO_MODE for a null pointer */
    size_t name_at;      /* where the name begins in the text */
    size_t name_length;  /* how many bytes it has, 1 to 255 */
    size_t value_at;     /* where the value begins, after its quote */
    size_t value_length; /* how many bytes it has, with the backslash before each quote or backslash */
    size_t next;         /* where the next line begins */
} pgn_tag;

/* The result of pgn_check_numbers. */
typedef struct pgn_number {
    uint32_t status;  /* PGN_OK: each number runs, and the last three fields are 0. PGN_FAULT: one
                         does not. Or PGN_NO_MODE for a null pointer */
    uint32_t unusual; /* 1 if a number does not run, or if the game has a part that may mean
                         something else than what is read. Else 0 */
    size_t place;     /* the place of the first number that does not run */
    uint64_t number;  /* that number; 4,294,967,295 also for a larger one */
    uint64_t before;  /* the number before it in the main line, in the same way */
} pgn_number;

/* Which lines can show where a game ends, for pgn_next_section. */
enum {
    PGN_ENDS_ANYWHERE = 0,    /* all lines, as for a bad game */
    PGN_ENDS_IN_COMMENTS = 1, /* lines in comments, as for a valid game: one may hide another game */
    PGN_ENDS_NOWHERE = 2      /* none: the lines are read for the comment that is open */
};

/* A bad game whose lines pgn_next_section reads. Begin with zeros, and set the first three. */
typedef struct pgn_bad_game {
    size_t begin;            /* where the game before it ends */
    size_t fault;            /* the place of its fault */
    size_t at;               /* where the next line begins; `begin` before the first call; after
                                PGN_OK the place where reading goes on */
    size_t comment_at;       /* where the comment begins that is open there, if has_comment */
    size_t escapes_at;       /* where the escape lines before the next line begin, if has_escapes */
    uint32_t ends;           /* which lines can show where it ends */
    uint32_t has_tags;       /* 1: a line so far had a tag */
    uint32_t has_movetext;   /* 1: a line so far was movetext */
    uint32_t is_behind_text; /* 1: the line before was not empty */
    uint32_t has_comment;    /* 1: a comment in braces is open */
    uint32_t has_escapes;    /* 1: escape lines are just before the next line */
} pgn_bad_game;

/* The result of pgn_next_section. */
typedef struct pgn_section {
    uint32_t status; /* PGN_OK, PGN_NO_GAME, PGN_MORE, PGN_NO_MODE or PGN_BAD_PLACE */
    size_t place;    /* PGN_OK: where reading goes on; else 0 */
} pgn_section;

/* The result of pgn_explain. */
typedef struct pgn_explanation {
    uint32_t status;     /* PGN_OK: the text is a form of a move. PGN_FAULT: see `fault`. Or
                            PGN_NO_MODE for a null pointer */
    uint32_t fault;      /* 26: the FEN is no position; 33: the text is no move; 0: none */
    uint32_t field;      /* with fault 26 the field of the FEN that is at fault, 1 to 7; else 0 */
    uint32_t form;       /* 1: a piece or a pawn; 2: castling king's side; 3: queen's side */
    uint32_t piece;      /* 'K', 'Q', 'R', 'B', 'N' or 'P' */
    uint32_t target;     /* the target square, in castling the king's: 8 * rank + file, from 0 */
    uint8_t origins[64]; /* by square: 1: a piece of this kind can step from here to the target by
                            its own rules, but its king would be in check; 2: that is a legal move;
                            0: neither, or the text says another file, rank, promotion */
} pgn_explanation;

/*
 * Returns the version of the library that runs, as PGN_VERSION_NUMBER is that of the header.
 *
 * Until 1.0 a minor version may change a call, so compare all but the patch level:
 * pgn_version() / 100 == PGN_VERSION_NUMBER / 100.
 */
uint32_t pgn_version(void);

/*
 * Checks a text in PGN import format, and counts its games and plies.
 *
 * PGN_OK: the text has no fault.
 * PGN_FAULT: `fault`, `place` and `message` say what its first fault is.
 *
 * `written` is 0.
 */
pgn_result pgn_check(const void *text, size_t length);

/*
 * Converts a text from import format to export format, into the front of a buffer.
 *
 * PGN_OK: the buffer has the whole export text, and the games and plies are counted.
 * PGN_FAULT: the text has a fault. The buffer has the export text of every game before it, and the
 *     complete lines of the game at fault, if its movetext has begun.
 * PGN_FULL: the buffer is full, and there is more to write. `fault` is 51, and `place` is that of
 *     the token whose text is not all written. Call again with a larger buffer and the whole text.
 * PGN_NO_MODE: `mode` is neither 0 nor 1.
 *
 * In each case the first `written` bytes of the buffer are a prefix of the export text. Its other
 * bytes are as they were.
 */
pgn_result pgn_convert(const void *text, size_t length,
                       uint8_t *buffer, size_t capacity, uint32_t mode);

/*
 * Writes the canonical text of a FEN (PGN 16.1) into the front of a buffer.
 *
 * The text has at most 93 bytes, and no zero after them.
 *
 * PGN_OK: the buffer has the text, and `length` is its length.
 * PGN_FAULT: the FEN is no position; `field` says which field is at fault. The buffer is unchanged.
 * PGN_FULL: the capacity is less than `length`. The buffer is unchanged.
 */
pgn_text pgn_fen_normalize(const void *fen, size_t length, uint8_t *buffer, size_t capacity);

/*
 * Writes the key of the position of a FEN into the front of a buffer.
 *
 * Two positions have the same key exactly if they are the same (FIDE Laws 9.2.3). The key has the
 * first four fields of a FEN, but for two differences. It names a castling right only while the
 * king and that rook are on their home squares, and an en passant target only if a legal move takes
 * a pawn there. It has at most 81 bytes, and no zero after them.
 *
 * The result is as for pgn_fen_normalize.
 */
pgn_text pgn_key(const void *fen, size_t length, uint8_t *buffer, size_t capacity);

/*
 * Finds the one legal move that a text names in the position of a FEN (PGN 8.2.3).
 *
 * `notation` is PGN_SAN or PGN_UCI. The result has the move's SAN, with the mark of check or mate,
 * its UCI, and the FEN of the position after it.
 *
 * PGN_OK: there is one such move.
 * PGN_FAULT: `fault` says why:
 *     26: the FEN is no position
 *     33: the text is no move
 *     34: no legal move agrees with it
 *     35: more than one does; never in UCI
 *     36: it is Black's move with the number 99,999, after which no FEN has the number
 * PGN_NO_MODE: `notation` is neither 0 nor 1.
 *
 * SAN is read freely: e2e4 and Ng1f3 are read too. UCI is read exactly: all letters are small,
 * castling is the king's move, such as e1g1, and a promotion has its letter, as in a7a8q.
 */
pgn_move pgn_san(const void *fen, size_t fen_length, const void *text, size_t length,
                 uint32_t notation);

/*
 * Plays a text of moves from the position of a FEN on, and writes each ply into the front of a
 * buffer.
 *
 * The text has moves, with white space between them. Move numbers and periods that stand alone, such
 * as 1. and 12..., are passed. There are no comments, variations, NAGs or markers. A ply is a line,
 * of at most 108 bytes:
 *
 * `format`      moves in  line of a ply
 * PGN_SAN       SAN       its SAN, its UCI and the FEN of the position after it, with a tab after
 *                         the first two and a line feed after the third
 * PGN_UCI       UCI       the same
 * PGN_SAN_FEN   SAN       the FEN and a line feed
 * PGN_UCI_FEN   UCI       the same
 * PGN_SAN_KEY   SAN       the key of the position after it and a line feed
 * PGN_UCI_KEY   UCI       the same
 *
 * PGN_OK: the buffer has the lines of all plies.
 * PGN_FAULT: `fault` says why:
 *     26: the FEN is no position; nothing is written
 *     33 to 36: as in pgn_san, of the first word that names no move. `place` is where it begins, and
 *         the buffer has the lines of the plies before it
 * PGN_FULL: the buffer has as many lines, from the first one on, as there is room for. `fault` is
 *     51, and `place` is that of the next ply. Call again with a larger buffer, or with the FEN of
 *     the last line and the text from `place` on.
 * PGN_NO_MODE: `format` is above 5.
 *
 * The bytes of the buffer after the first `written` are as they were.
 */
pgn_plies pgn_line(const void *fen, size_t fen_length, const void *text, size_t length,
                   uint32_t format, uint8_t *buffer, size_t capacity);

/*
 * Converts the next game of a text, from the byte at `from` on, into the front of a buffer.
 *
 * `from` is 0, the `end` of the game before, or another place between two games. Places count from
 * the first byte of the text. The bytes before `from` count as white space. So from a place inside
 * a token, a comment or an escape line, the rest of it is read as if it were outside. A byte order
 * mark is skipped at place 0 alone. A `%` at `from` begins an escape line only in the first column:
 * at place 0, after CR or LF, and at place 3 of a text that begins with a byte order mark.
 *
 * PGN_OK: a game; the buffer has its export text. Bytes after the one at `end` do not matter. If
 *     `end` is `length`, more bytes after the text could change the answer: a caller who reads in
 *     chunks gives more, and calls again with the same `from`.
 * PGN_NO_GAME: no game is left; there may be white space, comments and escape lines. Nothing is
 *     written. With more bytes there may be a game.
 * PGN_FAULT: the game has a fault, or (52) the text goes on to the byte at 2^62 before it ends. More
 *     bytes would not change that. The buffer has the complete lines of the game, if its movetext has begun.
 * PGN_MORE: the text has a fault if it ends here: inside a game or a comment, or after a token
 *     that could go on. More bytes could change that. A caller who reads in chunks gives more, and
 *     calls again with the same `from`. If the text is whole, this is its fault: `fault`, `place`
 *     and `message` say which. The buffer has what it has with PGN_FAULT.
 * PGN_FULL: the buffer is full, and has the first `capacity` bytes of what is to be written of the
 *     game. `fault` is 51, and `place` is that of the token whose text is not all written. Call
 *     again with a larger one.
 * PGN_NO_MODE: `mode` or `missing_result` is neither 0 nor 1.
 * PGN_BAD_PLACE: `from` is greater than `length` or than 2^62, and the status is not PGN_NO_MODE.
 *
 * With PGN_RESULT_FROM_MARKER the game is first read without being written. So nothing is written
 * with PGN_FAULT and PGN_MORE, and PGN_FULL is only for a game without a fault. The bytes of the
 * buffer after the first `written` are as they were.
 */
pgn_game pgn_next_game(const void *text, size_t length, size_t from, uint32_t mode,
                       uint32_t missing_result, uint8_t *buffer, size_t capacity);

/*
 * Reads the next game of a text, from the byte at `from` on, and writes its tag section into the
 * front of a buffer.
 *
 * The arguments, the statuses and the results are those of pgn_next_game. But the buffer gets only
 * the tag section and the empty line after it. No move is written, so a call takes less time.
 *
 * PGN_OK: a game; the buffer has its tag section. `end` has the meaning that it has in
 *     pgn_next_game.
 * PGN_FULL: the section is longer than the buffer, which has its first `capacity` bytes. `fault` is
 *     51, and `place` is that of the game's marker. Call again with a larger one.
 *
 * With all others nothing is written. The bytes of the buffer after the first `written` are as
 * they were. With PGN_RESULT_FROM_MARKER a missing Result is written as the marker.
 */
pgn_game pgn_read_game(const void *text, size_t length, size_t from, uint32_t mode,
                       uint32_t missing_result, uint8_t *buffer, size_t capacity);

/*
 * Writes the items of the next game of a text, from the byte at `from` on, a line each, into the
 * front of a buffer. Tag pairs have no line: pgn_read_game writes them.
 *
 * Between the fields of a line are tabs, and a line feed ends it. The first field says what it is:
 *
 * M   a move; its number, as 12. or 12..., and those of its SAN, its UCI, the FEN of the position
 *     after it and the key of that position that `fields` has
 * G   a NAG; its number, 0 to 255
 * C   a comment; a field for each of its words
 * (   a variation begins, which replaces the move before it
 * )   the variation ends
 * R   the termination marker, with which the game ends; the marker
 *
 * `fields` is the sum of those of PGN_ITEM_SAN to PGN_ITEM_KEY that are wanted, from 0 to 15. The
 * lines begin with that of the item `first_item`: 0, or the `next_item` of a call whose buffer was
 * full. `from` is as for pgn_next_game, and places count from the first byte of the text. The text
 * is whole: a caller who reads in chunks finds the game by pgn_next_game or pgn_read_game before.
 *
 * PGN_OK: the buffer has the lines of all items from `first_item` on. `end` is the place after the
 *     game's marker, from where the next game begins.
 * PGN_FAULT: the text has a fault before the game ends. The buffer has the lines of the items
 *     before it. The last one has no line feed if a comment is open there.
 * PGN_FULL: the buffer has as many whole lines as there is room for. `fault` is 51. Call again with
 *     the same `from` and with `next_item` as `first_item`, or, if that is the same, with a larger
 *     buffer.
 * PGN_NO_MODE: `fields` is above 15.
 * PGN_NO_GAME: no game is left; there may be white space, comments and escape lines.
 * PGN_BAD_PLACE: `from` is greater than `length`, or `length` than 2^62, and the status is not
 *     PGN_NO_MODE.
 *
 * With the last three nothing is written. With the others the bytes of the buffer after the first
 * `written` may have changed.
 */
pgn_item_lines pgn_items(const void *text, size_t length, size_t from, uint64_t first_item,
                         uint32_t fields, uint8_t *buffer, size_t capacity);

/*
 * Finds the tag pair on the line of an export text that begins at `at`.
 *
 * The first pair of a game's export text is at 0, the next at `next` of the one before. PGN_FAULT:
 * there is none at this place, so the pairs of the game are all found.
 */
pgn_tag pgn_tag_at(const void *text, size_t length, size_t at);

/*
 * Finds the first move number of a game that does not run, and says whether a closer look at the
 * game pays.
 *
 * The text is that of one valid game, from its first byte to its marker: pgn_next_game and
 * pgn_read_game say where it ends. A move number is digits with a period after them, white space
 * between or not, outside comments and variations. It does not run if it is lower than the number
 * before it, or higher by more than the moves between. The first number of a game always runs. PGN
 * 8.2.2 lets numbers decide nothing, but one that does not run shows that moves or a result may be
 * missing.
 *
 * unusual tells of more, outside comments, strings and lines that begin with %: a symbol that begins
 * with P; one of four bytes that begins with 0, as 0000; a comment to the end of a line; a line that
 * begins with %; and a ( with a NAG or a suffix after it.
 *
 * Of a text that pgn_check rejects at a byte, a string, a comment or a NAG (faults 1 to 12), the
 * result says nothing.
 */
pgn_number pgn_check_numbers(const void *text, size_t length);

/*
 * Reads the next piece of the text of a bad game, and finds where reading goes on after the game.
 *
 * It is a guess: the next line that begins a tag section. docs/PYTHON.md has the rule in words. The
 * first piece begins at the byte `begin` of the text, and each further one at the byte `at`. The
 * other fields are the call's own. `is_last` is not 0 if nothing follows the piece. Places count
 * from the first byte of the text.
 *
 * PGN_OK: reading goes on at `place`, which lies above `begin`. `at` is the same place. A byte order
 *     mark that stands where the game ends is passed.
 * PGN_NO_GAME: the place is not in this text: all the rest belongs to the bad game. `at` is after
 *     the text, and `comment_at` says which comment is open there.
 * PGN_MORE: the whole lines of the piece are read, and `at` is after them. The next piece begins
 *     with the bytes that are left, from `at` on. Give more of them than before.
 * PGN_NO_MODE: there are no such `ends`. The game is unchanged.
 * PGN_BAD_PLACE: the piece would end at 2^64 or above. The game is unchanged.
 */
pgn_section pgn_next_section(pgn_bad_game *game, const void *piece, size_t length,
                             uint32_t is_last);

/*
 * Explains what a move's text means in the position of a FEN, also if it is rejected: from which
 * squares a piece of that kind can step to the target, and which of these steps are legal.
 *
 * An `x`, a `+` and a `#` in the text do not matter. Castling is a step only if the king leaves,
 * crosses and reaches no attacked square, so it never has a 1. A legal move has a 2 also where
 * pgn_san has fault 36.
 */
pgn_explanation pgn_explain(const void *fen, size_t fen_length,
                            const void *text, size_t length);

#ifdef __cplusplus
}
#endif
#endif
