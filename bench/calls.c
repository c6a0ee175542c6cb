/*
 * Reads a text in one of the ways that calls.py names and describes, such as `calls whole`, and
 * writes what is written to standard output.
 */
#include <stdio.h>
#include <string.h>
#include "pgn.h"

static const char first[] = "rnbqkbnr/pppppppp/8/8/8/8/PPPPPPPP/RNBQKBNR w KQkq - 0 1";
static uint8_t text[1 << 24], buffer[1 << 24], export[1 << 20];

/* Plays moves by a call each, and returns how many bytes are written at `to`. */
static size_t play_moves(char *moves, char *to, size_t room) {
    size_t used = 0;
    char fen[96];

    strcpy(fen, first);
    for (char *word = strtok(moves, " \n"); word; word = strtok(NULL, " \n")) {
        if (word[strlen(word) - 1] == '.')
            continue;
        pgn_move move = pgn_san(fen, strlen(fen), word, strlen(word), PGN_SAN);
        memcpy(fen, move.fen, sizeof fen);
        used += (size_t)snprintf(to + used, room - used, "%s\t%s\t%s\n", (char *)move.san,
                                 (char *)move.uci, fen);
    }
    return used;
}

/* Writes the plies of an export text, whose length this is, and returns how many bytes they are. */
static size_t put_plies(size_t length, size_t used, int in_one_call) {
    char *moves;

    export[length] = 0;
    moves = strstr((char *)export, "\n\n") + 1;
    /* the marker is the last word */
    length = strlen(moves) - 2;
    while (length && moves[length - 1] != ' ' && moves[length - 1] != '\n')
        length--;
    moves[length] = 0;
    if (in_one_call)
        return pgn_line(first, strlen(first), moves, length, PGN_SAN,
                        buffer + used, sizeof buffer - used).written;
    return play_moves(moves, (char *)buffer + used, sizeof buffer - used);
}

int main(int count, char **words) {
    const char *way = count == 2 ? words[1] : "whole";
    const int is_items = !strcmp(way, "items"), is_sections = !strcmp(way, "sections");
    const int is_lines = !strcmp(way, "lines"), is_moves = !strcmp(way, "moves");
    const int result = strcmp(way, "from-marker") ? PGN_RESULT_UNKNOWN : PGN_RESULT_FROM_MARKER;
    size_t length = fread(text, 1, sizeof text, stdin), used = 0;
    pgn_game game = {0};

    if (!strcmp(way, "whole")) {
        pgn_result all = pgn_convert(text, length, buffer, sizeof buffer, PGN_FULL_FORMAT);
        fwrite(buffer, 1, all.written, stdout);
        return all.status != PGN_OK;
    }
    if (!strcmp(way, "check"))
        return pgn_check(text, length).status != PGN_OK;
    do {
        uint8_t *to = buffer + used;
        size_t room = sizeof buffer - used;

        if (is_items) {
            pgn_item_lines lines = pgn_items(text, length, game.end, 0,
                                             PGN_ITEM_SAN | PGN_ITEM_UCI | PGN_ITEM_FEN, to, room);
            game.status = lines.status;
            game.end = lines.end;
            game.written = lines.written;
        } else if (is_sections) {
            game = pgn_read_game(text, length, game.end, PGN_FULL_FORMAT, result, to, room);
        } else if (is_lines || is_moves) {
            game = pgn_next_game(text, length, game.end, PGN_REDUCED_FORMAT, result, export,
                                 sizeof export - 1);
            if (game.status == PGN_OK)
                game.written = put_plies(game.written, used, is_lines);
        } else {
            game = pgn_next_game(text, length, game.end, PGN_FULL_FORMAT, result, to, room);
        }
        used += game.written;
    } while (game.status == PGN_OK);
    fwrite(buffer, 1, used, stdout);
    return game.status != PGN_NO_GAME;
}
