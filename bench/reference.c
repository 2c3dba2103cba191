/* A plain checker of refutations by the rules of `tsl recheck`, to measure that command against. It reads a formula, the
   line `lrat` and a log, prints the verdict or the fault, and ends with the same status. */
#include <stdint.h>
#include <stdio.h>
#include <stdlib.h>
#include <string.h>

typedef struct { const char *at, *end; } Span;
typedef struct { int64_t number; size_t first, count, first_hint, hints; } Clause;

static Clause *clauses;
static int *literals;
static int64_t *hints, formula_clauses;
static size_t clause_count, literal_count, hint_count, clause_room, literal_room, hint_room;

static void *grown(void *items, size_t *room, size_t count, size_t size) {
    if (count < *room) return items;
    *room = *room ? 2 * *room : 1024;
    items = realloc(items, *room * size);
    if (!items) exit(8);
    return items;
}

static void end(int status, const char *format, long long a, long long b) {
    fprintf(status < 2 ? stdout : stderr, format, a, b);
    exit(status);
}

static int next_line(Span *text, Span *line) {
    if (text->at == text->end) return 0;
    const char *feed = memchr(text->at, '\n', text->end - text->at);
    line->at = text->at;
    line->end = feed ? feed : text->end;
    text->at = feed ? feed + 1 : text->end;
    return 1;
}

static int is_blank(char byte) { return byte == ' ' || byte == '\t' || byte == '\r'; }

static int next_word(Span *line, Span *word) {
    while (line->at < line->end && is_blank(*line->at)) line->at++;
    word->at = line->at;
    while (line->at < line->end && !is_blank(*line->at)) line->at++;
    word->end = line->at;
    return word->at < word->end;
}

static int is_text(Span word, const char *text) {
    size_t size = strlen(text);
    return (size_t)(word.end - word.at) == size && !memcmp(word.at, text, size);
}

static int number_of(Span word, int may_be_negative, int64_t *number) {
    int negative = may_be_negative && *word.at == '-';
    word.at += negative;
    if (word.at == word.end || word.end - word.at > 18) return 0;
    for (*number = 0; word.at < word.end; word.at++) {
        if (*word.at < '0' || *word.at > '9') return 0;
        *number = *number * 10 + (*word.at - '0');
    }
    if (negative && *number == 0) return 0;
    if (negative) *number = -*number;
    return 1;
}

static int compare(const void *a, const void *b) { return (*(int *)a > *(int *)b) - (*(int *)a < *(int *)b); }

static void begin_clause(int64_t number) {
    clauses = grown(clauses, &clause_room, clause_count, sizeof *clauses);
    clauses[clause_count++] = (Clause){number, literal_count, 0, hint_count, 0};
}

static void add_literal(int literal) {
    literals = grown(literals, &literal_room, literal_count, sizeof *literals);
    literals[literal_count++] = literal;
}

/* Sorts the literals of the last clause, and keeps each once. */
static void end_clause(void) {
    Clause *clause = &clauses[clause_count - 1];
    int *own = literals + clause->first;
    size_t count = literal_count - clause->first, kept = 0;
    if (count > 1) qsort(own, count, sizeof *own, compare);
    for (size_t i = 0; i < count; i++)
        if (!kept || own[kept - 1] != own[i]) own[kept++] = own[i];
    clause->count = kept;
    literal_count = clause->first + kept;
}

static int64_t read_formula(Span text) {
    int64_t variables = 0, number, open = 0, line_number = 0;
    int has_header = 0;
    Span line, word, count;
    while (next_line(&text, &line)) {
        line_number++;
        if (line.at < line.end && *line.at == 'c') continue;
        if (!has_header) {
            Span rest = line;
            if (!(next_word(&rest, &word) && is_text(word, "p") && next_word(&rest, &word) && is_text(word, "cnf")
                  && next_word(&rest, &word) && number_of(word, 0, &variables) && next_word(&rest, &count)
                  && number_of(count, 0, &formula_clauses) && !next_word(&rest, &word)))
                end(3, "fault cnf %lld form\n", line_number, 0);
            has_header = 1;
            continue;
        }
        while (next_word(&line, &word)) {
            if (!number_of(word, 1, &number) || llabs(number) > variables || (int64_t)clause_count - open == formula_clauses)
                end(3, "fault cnf %lld form\n", line_number, 0);
            if (!open) begin_clause(clause_count + 1);
            open = number != 0;
            if (open) add_literal(number);
            else end_clause();
        }
    }
    if (!has_header || open || (int64_t)clause_count < formula_clauses) end(3, "fault cnf %lld form\n", line_number + 1, 0);
    if (variables > 1048576) end(4, "large variables 1048576\n", 0, 0);
    if (formula_clauses > 2000000) end(4, "large clauses 2000000\n", 0, 0);
    return variables;
}

static int is_deletion(Span line) {
    Span word;
    int64_t number = 1;
    while (next_word(&line, &word))
        if (!number_of(word, 0, &number)) return 0;
    return number == 0;
}

/* Whether the words behind a number are `LITERALS 0 HINTS 0`. */
static int read_step(int64_t name, Span line) {
    Span word;
    int64_t number;
    int zeros = 0;
    begin_clause(name);
    while (next_word(&line, &word)) {
        if (zeros == 2 || !number_of(word, 1, &number)) return 0;
        if (number == 0) {
            if (zeros++ == 0) end_clause();
        } else if (zeros == 0) {
            if (llabs(number) > INT32_MAX) return 0;
            add_literal(number);
        } else {
            if (number < 0) return 0;
            hints = grown(hints, &hint_room, hint_count, sizeof *hints);
            hints[hint_count++] = number;
            clauses[clause_count - 1].hints++;
        }
    }
    return zeros == 2;
}

static void read_log(Span text) {
    Span line, word, rest;
    int64_t name, line_number = 0;
    while (next_line(&text, &line)) {
        line_number++;
        if ((line.at < line.end && *line.at == 'c') || !next_word(&line, &word)) continue;
        int is_right = number_of(word, 0, &name);
        rest = line;
        if (is_right && next_word(&rest, &word) && is_text(word, "d")) is_right = is_deletion(rest);
        else is_right = is_right && read_step(name, line);
        if (!is_right) end(3, "fault log %lld form\n", line_number, 0);
    }
}

/* The clause of a number among the first ones, or none. */
static const Clause *find_clause(int64_t number, size_t count) {
    size_t low = 0, high = count;
    while (low < high) {
        size_t middle = low + (high - low) / 2;
        if (clauses[middle].number < number) low = middle + 1;
        else high = middle;
    }
    return low < count && clauses[low].number == number ? &clauses[low] : NULL;
}

static signed char *truths;
static int *made;
static size_t made_count;

static int truth_of(int literal) { return literal > 0 ? truths[literal] : -truths[-literal]; }

static void make_true(int literal) {
    truths[abs(literal)] = literal > 0 ? 1 : -1;
    made[made_count++] = abs(literal);
}

/* Whether the literals of a step's clause can be made false together. */
static int begin_step(const Clause *step, int64_t largest, int64_t variables) {
    if (step->number <= largest) return 0;
    for (size_t i = 0; i < step->count; i++) {
        int literal = literals[step->first + i];
        if (abs(literal) > variables || truth_of(literal) == 1) return 0;
        make_true(-literal);
    }
    return 1;
}

/* The position of the hint that is refused, or 0. */
static size_t refused_hint(const Clause *step, size_t known) {
    for (size_t i = 0; i < step->hints; i++) {
        const Clause *clause = find_clause(hints[step->first_hint + i], known);
        int open = 0, unit = 0;
        if (!clause) return i + 1;
        for (size_t k = 0; k < clause->count && open < 2; k++) {
            int literal = literals[clause->first + k];
            if (truth_of(literal) == -1) continue;
            open++;
            unit = literal;
        }
        if (open == 0) return 0;
        if (open > 1 || truth_of(unit) == 1) return i + 1;
        make_true(unit);
    }
    return step->hints + 1;
}

static void check(int64_t variables) {
    int64_t largest = formula_clauses;
    int has_empty = 0;
    truths = calloc(variables + 1, 1);
    made = calloc(variables + 1, sizeof *made);
    if (!truths || !made) exit(8);
    for (size_t i = formula_clauses; i < clause_count; i++) {
        const Clause *step = &clauses[i];
        if (!begin_step(step, largest, variables)) end(1, "refused line %lld\n", step->number, 0);
        size_t position = refused_hint(step, i);
        if (position) end(1, "refused hint %lld %lld\n", step->number, position);
        while (made_count) truths[made[--made_count]] = 0;
        largest = step->number;
        has_empty |= step->count == 0;
    }
    if (!has_empty) end(1, "refused unfinished\n", 0, 0);
}

int main(void) {
    size_t size = 0, room = 1 << 20, got;
    char *text = malloc(room);
    while (text && (got = fread(text + size, 1, room - size, stdin)) > 0) {
        size += got;
        if (size == room) text = realloc(text, room *= 2);
    }
    if (!text) return 8;
    Span rest = {text, text + size}, line;
    while (next_line(&rest, &line))
        if (is_text(line, "lrat")) {
            int64_t variables = read_formula((Span){text, line.at});
            read_log(rest);
            check(variables);
            end(0, "verified\n", 0, 0);
        }
    end(3, "fault parts lrat\n", 0, 0);
}
