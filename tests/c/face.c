/*
 * The C face as a C or C++ program sees it. When compiled: layout.h. When run: every call for 0 and for its refusals,
 * with guard elements around all lent memory. Prints one line and ends with status 0 only if every check held.
 */
#include "layout.h"
#include "lent.h"

#include "codecs.h"
#include "front.h"
#include "reading.h"
#include "walking.h"
#include "why.h"
#include "why_words.h"
#include "words.h"
#include "writing.h"

int main(void) {
    make_seal_a();
    test_seal_a();
    test_cut();
    test_reader_refusals();
    test_days();
    test_room();
    test_names();
    test_pairs();
    test_lengths();
    test_places();
    test_front_three();
    test_front_four();
    test_front_follow();
    test_front_room();
    test_front_most();
    test_why_three();
    test_why_four();
    test_why_most();
    test_why_met();
    test_walk_rows();
    test_walk_steps();
    test_walk_lengths();
    test_walk_refused();
    test_shown();
    test_shown_parts();
    test_shown_refused();
    test_writer_header();
    test_writer_rows();
    test_tables();
    test_tag_places();
    test_c40();
    test_c40_pairs();
    test_dates();
    test_integers();
    test_signatures();
    test_hash();
    test_words();
    test_why_words();
    printf("face: %lu checks, %lu failed\n", checks, failures);
    return failures != 0;
}
