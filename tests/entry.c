/* A C program over include/sundrimel.h: one answer, and for each refusal one request or more, which differ from the answered one in what their row
 * speaks of. After each, every number and every byte of both buffers. Ends with status 1, and names the row, where one is not as it should be. */
#include "sundrimel.h"

#include <stdio.h>
#include <string.h>

static uint8_t reference[SUNDRIMEL_ROOM], alternative[SUNDRIMEL_ROOM], untouched[SUNDRIMEL_ROOM];

static const uint8_t one_exon[] = {0, 0, 0, 0, 12, 0, 0, 0};
static const uint8_t two_exons[] = {0, 0, 0, 0, 4, 0, 0, 0, 4, 0, 0, 0, 12, 0, 0, 0};
static const uint8_t exons_with_a_gap[] = {1, 0, 0, 0, 4, 0, 0, 0, 6, 0, 0, 0, 12, 0, 0, 0};

typedef struct {
    const char *target;
    uint32_t kind;
    const uint8_t *exons;
    size_t exons_len;
    int64_t cds_start, cds_end;
    int32_t start, end;
    uint32_t edit;
    const char *alternative;
    uint32_t direction, window;
    size_t room;
} request;

/* the deletion of one base of a run of three */
static request deletion(void) {
    request r = {"CAAATGGTACCA", SUNDRIMEL_OPEN, one_exon, 0, -1, -1, 1, 2, SUNDRIMEL_DELETE, "", SUNDRIMEL_RIGHTWARD, 20, SUNDRIMEL_ROOM};
    return r;
}

static request insertion(const char *bases, int32_t start, int32_t end) {
    request r = deletion();
    r.edit = SUNDRIMEL_INSERT;
    r.alternative = bases;
    r.start = start;
    r.end = end;
    return r;
}

static request transcript(const uint8_t *exons, size_t exons_len, int32_t start, int32_t end) {
    request r = deletion();
    r.kind = SUNDRIMEL_TRANSCRIPT;
    r.exons = exons;
    r.exons_len = exons_len;
    r.start = start;
    r.end = end;
    return r;
}

static sundrimel_answer ask(request r) {
    memset(reference, '.', sizeof reference);
    memset(alternative, '.', sizeof alternative);
    return sundrimel_normalize((const uint8_t *)r.target, strlen(r.target), r.kind, r.exons, r.exons_len, r.cds_start, r.cds_end, r.start, r.end,
                               r.edit, (const uint8_t *)r.alternative, strlen(r.alternative), r.direction, r.window, reference, r.room,
                               alternative, r.room);
}

/* whether both buffers hold these bytes at their front and are as they were behind them */
static int buffers_hold(const char *first, const char *second) {
    size_t a = strlen(first), b = strlen(second);
    return !memcmp(reference, first, a) && !memcmp(reference + a, untouched, sizeof reference - a) && !memcmp(alternative, second, b) &&
           !memcmp(alternative + b, untouched, sizeof alternative - b);
}

static int faults = 0;

static void expect(int as_it_should_be, unsigned row) {
    if (!as_it_should_be) {
        printf("C entry: the request for refusal %u differs\n", row);
        faults++;
    }
}

static void refused(unsigned row, request r) {
    sundrimel_answer a = ask(r);
    expect(a.refusal == row && !a.class_ && !a.start && !a.end && !a.probes && !a.reference_len && !a.alternative_len && buffers_hold("", ""), row);
}

static void answered(void) {
    sundrimel_answer a = ask(deletion());
    expect(a.refusal == 0 && a.class_ == SUNDRIMEL_DELETION && a.start == 4 && a.end == 4 && a.probes == 3 && a.reference_len == 1 &&
               a.alternative_len == 0 && buffers_hold("A", ""),
           0);
}

static void refused_for_its_numbers(void) {
    request r = deletion();
    r.kind = 3;
    refused(SUNDRIMEL_BAD_CODE, r);
    r = deletion();
    r.edit = 5;
    refused(SUNDRIMEL_BAD_CODE, r);
    r = deletion();
    r.direction = 2;
    refused(SUNDRIMEL_BAD_CODE, r);
    r = deletion();
    r.window = 0;
    refused(SUNDRIMEL_BAD_WINDOW, r);
    r = deletion();
    r.target = "";
    refused(SUNDRIMEL_BAD_TARGET, r);
    r = deletion();
    r.target = "CAAATGGTNCCA";
    refused(SUNDRIMEL_BAD_BASE, r);
    r = deletion();
    r.start = -1;
    refused(SUNDRIMEL_COORDINATES_OUT_OF_BOUNDS, r);
    r = deletion();
    r.end = 13;
    refused(SUNDRIMEL_COORDINATES_OUT_OF_BOUNDS, r);
    r = deletion();
    r.room = SUNDRIMEL_ROOM - 1;
    refused(SUNDRIMEL_NO_ROOM, r);
}

static void refused_for_its_bases(void) {
    static char bases[1026];
    memset(bases, 'A', 1025);
    refused(SUNDRIMEL_BAD_INSERTION, insertion("A", 1, 2));
    refused(SUNDRIMEL_TOO_LONG, insertion(bases, 1, 3));
    refused(SUNDRIMEL_BAD_ALLELE, insertion("N", 1, 3));
    request r = insertion("GG", 10, 12);
    r.direction = SUNDRIMEL_LEFTWARD;
    refused(SUNDRIMEL_VARIANT_SPAN_OUTSIDE_SEQUENCE_BOUNDS, r);
}

static void refused_for_its_tables(void) {
    refused(SUNDRIMEL_BAD_TABLES, transcript(one_exon, 7, 1, 2));
    request r = transcript(one_exon, sizeof one_exon, 1, 2);
    r.cds_end = -2;
    refused(SUNDRIMEL_BAD_TABLES, r);
    refused(SUNDRIMEL_EXON_NOT_FOUND_FOR_START, transcript(exons_with_a_gap, sizeof exons_with_a_gap, 0, 2));
    refused(SUNDRIMEL_EXON_NOT_FOUND_FOR_END, transcript(exons_with_a_gap, sizeof exons_with_a_gap, 1, 5));
    refused(SUNDRIMEL_EXON_INTRON_BOUNDARY, transcript(two_exons, sizeof two_exons, 3, 5));
    r = transcript(one_exon, sizeof one_exon, 3, 5);
    r.cds_start = 4;
    refused(SUNDRIMEL_UTR_EXON_BOUNDARY, r);
}

int main(void) {
    memset(untouched, '.', sizeof untouched);
    answered();
    refused_for_its_numbers();
    refused_for_its_bases();
    refused_for_its_tables();
    if (!faults) puts("C entry: as it should be");
    return faults ? 1 : 0;
}
