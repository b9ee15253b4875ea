"""Mistakes that can be built into the store in Python (tests/models/store_model.py), so that the tests can show that they would see them.
Each is a name. They stand by what shows them, with the test that must see it; all but those that document 01 warns of
tests/test_probe.py must see in the words too. "Old" is the reference that a store or a put overwrites, "the scan" the step that shades a
session's registers, "the old test" the one that a reference had to pass before its replica was tested."""

# ---- what a session is answered: tests/test_slips.py
BLACK_EARLY, WORDS_COMPARED, ALLOCATE_ENDS_EARLY = "black early", "words compared", "allocate ends early"
WARNED_SLIPS = [BLACK_EARLY, WORDS_COMPARED, ALLOCATE_ENDS_EARLY]  # document 01 warns of them
OLD_LEFT, OLD_LEFT_IN_4 = "old not shaded at level 2", "old not shaded at level 2 in phase 4"
OLD_READ_LATE, STORED_LEFT = "old read after the write", "stored not shaded at level 2"
MISSED_SLIPS = [OLD_LEFT, OLD_LEFT_IN_4, OLD_READ_LATE, STORED_LEFT]  # marking misses a record that a session can come to
# a store or a put that acts as at another level: the session's level and the other one, with the mistake
STORED_AS = {levels: "a store at level {} acts as at level {}".format(*levels) for levels in ((5, 4), (6, 4), (5, 6), (6, 5))}
PUT_AS = {levels: "a put at level {} acts as at level {}".format(*levels) for levels in ((5, 6), (6, 5))}
LEVEL_SLIPS = [*STORED_AS.values(), *PUT_AS.values()]
FROMSPACE_SLIP = STORED_AS[6, 5]  # in words alone: a fromspace copy names the other copy of the same record, and every session knows both
ANSWER_SLIPS = WARNED_SLIPS + MISSED_SLIPS + [slip for slip in LEVEL_SLIPS if slip != FROMSPACE_SLIP]

# ---- another phase after a step, or a lack of room: tests/test_slips.py
MARKS_CLEARED, ATTACHED_UNSCANNED = "marks cleared by shading", "attached in phase 4 unscanned"
MARK_OF_BEFORE = "attached in phase 4 with the number's mark of before"
ATTACHED_SCANNED = "attached in any phase scanned"  # in phase 11 too, which has a step less then
OLD_IN_4_ALONE, OLD_AT_1 = "old not shaded at level 2 but in phase 4", "old shaded at level 1 too"
OLD_LEFT_BY_PUT = "old not shaded by put"
LINE_SLIPS = [MARKS_CLEARED, ATTACHED_UNSCANNED, MARK_OF_BEFORE, ATTACHED_SCANNED, OLD_IN_4_ALONE, OLD_AT_1, OLD_LEFT_BY_PUT]

# ---- a refusal in halves of 16 words: tests/test_marking_ends.py
COUNTED_TWICE = "equal references counted twice"
LISTED_TWICE = "equal references listed twice"   # where there is room for both, marking takes more steps
FULL_LIST_SLIPS = [COUNTED_TWICE, LISTED_TWICE]  # with 12, where the list has room for one
PLACE_IN_HALF = "32 globals bound by the half"   # with 4

# ---- words alone
OTHER_ORDER, DETACH_UNMARKS = "stored shaded before old", "mark cleared by detach"
OLD_LEFT_AT_3 = "old not shaded at level 3"  # of a memory that no run leaves
WORD_SLIPS = [OTHER_ORDER, DETACH_UNMARKS, OLD_LEFT_AT_3]

# ---- damage
STRETCH_EARLY = "stretch from the reference fields"  # of a sound store too, but no script has the stretch
COMPANION_BLIND, COLOUR_THREE, LEVELS_ATTACHED = "companion without 12", "colour 3 sound", "levels of attached sessions alone"
DAMAGE_SLIPS = [STRETCH_EARLY, COMPANION_BLIND, COLOUR_THREE, LEVELS_ATTACHED]

# ---- the scan: the cases of tests/cases/scan_cases.py
FOLLOWED_AGAIN = "followed again while the scan shades, refused there"  # where records share words
PASSED_OVER = "followed again while the scan shades, passed over there"
IN_TURN = "the scan tests and shades in turn"
TESTED_LATE = {FOLLOWED_AGAIN, PASSED_OVER, IN_TURN}
ROOM_FOR_EIGHT, LAST_FIRST = "the scan asks room for eight", "the scan from the last register to the first"
FIRST_LEFT, UNMARKED = "the scan leaves out the first register", "the scan sets no mark"
SCAN_ALONE = TESTED_LATE | {ROOM_FOR_EIGHT, LAST_FIRST, FIRST_LEFT, UNMARKED}
SCAN_SLIPS = [FOLLOWED_AGAIN, PASSED_OVER, *FULL_LIST_SLIPS, ROOM_FOR_EIGHT, IN_TURN, LAST_FIRST, FIRST_LEFT, UNMARKED]

# ---- the test of replicas, too strict: a refusal with 12 in a run: tests/test_slips.py
NONE_REFUSED, HALF_SAME, HALF_NOT_CURRENT = "replica word 0 refused", "replicas in the same half", "replicas not in the current half"
FRONTIER_OF_THIS, SHAPE_BY_COLOUR = "replicas below the record's own frontier", "replica's word 0 compared with the record's colour"
BACK_TO_ITSELF = "replica's replica word compared with the replica"
COLOURS_COMPARED, FIELDS_COMPARED = "colours of both copies compared", "fields of both copies compared"
NUMBERS_COMPARED = "numbers of both copies compared"  # which only damage shows
STRICT_SLIPS = [NONE_REFUSED, HALF_SAME, HALF_NOT_CURRENT, FRONTIER_OF_THIS, SHAPE_BY_COLOUR, BACK_TO_ITSELF, COLOURS_COMPARED,
                FIELDS_COMPARED]

# ---- the test of replicas, too weak: the cases of tests/cases/replica_cases.py
REPLICAS_UNTESTED = "replicas not tested"  # the rules as they were before request [5]
LEFT_BEFORE_5, LEFT_IN_12 = "replicas not tested before phase 5", "replicas not tested in phase 12"
LEFT_IN_TOSPACE, LEFT_IN_FROMSPACE = "replicas of tospace records not tested", "replicas of fromspace records not tested"
LEFT_BELOW_3 = "replicas not tested for sessions below level 3"
HALF_UNTESTED, SOUND_UNTESTED = "replica's half not tested", "replica not tested for soundness"
COLOUR_UNTESTED = "replica's colour not tested"
FRONTIER_UNTESTED, HEADER_ALONE = "replica not tested for its frontier", "replica's header alone tested for its frontier"
SHAPE_UNTESTED = "replica's word 0 not compared"
SHAPE_AT_LEAST, SHAPE_AT_MOST = "replica's word 0 may be greater", "replica's word 0 may be smaller"
SIZE_ALONE, LINKS_ALONE, PLAINS_ALONE = "sizes of both copies compared", "reference fields alone counted", "plain fields alone counted"
BACK_UNTESTED, BACK_SOMEWHERE = "replica's replica word not compared", "replica's replica word tested for 0 alone"
BACK_OR_NONE, BACK_BY_PLACE = "replica's replica word may be 0", "replica's replica word compared by its place alone"
WEAK_SLIPS = [REPLICAS_UNTESTED, LEFT_BEFORE_5, LEFT_IN_12, LEFT_IN_TOSPACE, LEFT_IN_FROMSPACE, LEFT_BELOW_3, HALF_UNTESTED, SOUND_UNTESTED,
              COLOUR_UNTESTED, FRONTIER_UNTESTED, HEADER_ALONE, SHAPE_UNTESTED, SHAPE_AT_LEAST, SHAPE_AT_MOST, SIZE_ALONE, LINKS_ALONE,
              PLAINS_ALONE, BACK_UNTESTED, BACK_SOMEWHERE, BACK_OR_NONE, BACK_BY_PLACE]
# where a reference is followed, with the mistake to do it there by the old test
STORING = ["store", "stored and shaded", "stored at level 4", "stored at level 5", "stored at level 6", "overwritten by store"]
PLACES = {place: f"{place} by the old test" for place in [
    "load", "read", "write", "stretch", "companion", "birth", "same", *STORING, *(f"several links: {place}" for place in STORING),
    "put and shaded", "put at level 6", "overwritten by put", "global shaded", "list entry", "field shaded", "register shaded",
    "walk in Allocate", "walk in Copy", "field copied", "global flipped", "register flipped", "walk in Reclaim"]}
FOLLOWING_SLIPS = {*STRICT_SLIPS, *WEAK_SLIPS, *PLACES.values(), NUMBERS_COMPARED}

# ---- birth numbers, in what a session is answered: the runs of tests/test_birth.py
COPY_UNNUMBERED, SHELL_UNNUMBERED = "tospace copy of a new record with number 0", "shell with number 0"
SHELL_RENUMBERED, COPY_CLEARS = "shell with a number of its own", "Copy sets the number to 0"
RECLAIM_CLEARS, COUNT_RECLAIMED = "Reclaim sets numbers to 0", "the count is 0 again after a collection"
USED_BY = {number: f"an allocation refused with {number} uses a number" for number in (8, 10, 14)}
UNCOUNTED, COUNTED_BOTH = "numbers not counted at levels 3 to 6", "numbers counted for both copies"
ENDS_EARLY, NEVER_ENDS = "the last number refused with 16", "no 16: after the last number comes 0"
ASKS_FOR_FIELDS, ANSWERS_COUNT = "birth refused with 13 without a plain field", "birth answers the count"
PAST_BY_3, COUNT_TESTED = "a walk goes on by 3 + r + p words", "4 where all numbers are used"
RUN_NUMBER_SLIPS = [COPY_UNNUMBERED, SHELL_UNNUMBERED, SHELL_RENUMBERED, COPY_CLEARS, RECLAIM_CLEARS, COUNT_RECLAIMED, *USED_BY.values(),
                    UNCOUNTED, COUNTED_BOTH, ENDS_EARLY, NEVER_ENDS, ASKS_FOR_FIELDS, ANSWERS_COUNT, PAST_BY_3, COUNT_TESTED]

# ---- birth numbers, in a line that is another one, though no session can tell: the same runs
NUMBERS_FIRST, ROOM_BY_3 = "16 before 14", "room for 3 + r + p words asked"
LINE_NUMBER_SLIPS = [NUMBERS_FIRST, ROOM_BY_3]

# ---- birth numbers, in damage and in making; these and all of the above show in the cases of tests/cases/birth_cases.py
ASKS_BLINDLY, ASKS_REPLICA = "birth without 12", "birth answers the replica's number"
COPY_CARRIES, NUMBER_TESTED = "Copy copies the number too", "a number above the count unsound"
SOUND_BY_3, LIST_BY_3, MAKING_COUNTS_ON = "sound by 3 + r + p words", "a list of a third of a half asked", "making keeps the count"
NUMBER_SLIPS = [*RUN_NUMBER_SLIPS, *LINE_NUMBER_SLIPS, ASKS_BLINDLY, ASKS_REPLICA, COPY_CARRIES, NUMBER_TESTED, SOUND_BY_3, LIST_BY_3,
                MAKING_COUNTS_ON, NUMBERS_COMPARED]

# ---- shares and charges, in a session's answer that the collector-free store does not give: the runs of tests/test_shares.py
UNFED, FED_AS_ROOM = "the collector-free store is fed 17 as fitted", "the collector-free store is fed 17 as 14"
SHARE_BEFORE_SHAPE, CHARGE_TESTED = "17 before 10", "4 where a charge is above its share"
FREE_SHARE_SLIPS = [SHARE_BEFORE_SHAPE, CHARGE_TESTED]

# ---- shares and charges, in a line that is another one, though the collector-free store gives it too where it is fed so: the same runs
ATTACH_CLEARS, SHARE_KEPT = "attach sets the charge to 0", "attach keeps the old share"
REFUSED_SHARES = "an attach refused with 7 sets the share"
DETACH_CLEARS = "detach sets the charge to 0"
CHARGE_FORGOTTEN, SHARE_JUST_REFUSED = "17 without the charge", "17 where the share would be just filled"
ROOM_BEFORE_SHARE, NUMBERS_BEFORE_SHARE = "14 before 17", "16 before 17"
HEADER_FREE = "the header neither tested nor charged"
BOTH_CHARGED, SHELLS_CHARGED, NEXT_CHARGED = "both copies charged", "shells charged to session 0", "charged to the next session"
CHARGED_BY = {number: f"an allocation refused with {number} is charged" for number in (14, 16, 17)}
CHARGES_STAY, ATTACHED_CLEARED = "charges stay when Reclaim ends", "charges of attached sessions alone cleared"
CLEARED_AT_RECLAIM, CLEARED_AFTER_REST = "charges cleared when Reclaim begins too", "charges cleared when Rest is left too"
CLEARED_WAITING = "charges cleared by a step of Reclaim that waits too"
LINE_SHARE_SLIPS = [ATTACH_CLEARS, SHARE_KEPT, REFUSED_SHARES, DETACH_CLEARS, CHARGE_FORGOTTEN, SHARE_JUST_REFUSED, ROOM_BEFORE_SHARE,
                    NUMBERS_BEFORE_SHARE, HEADER_FREE, BOTH_CHARGED, SHELLS_CHARGED, NEXT_CHARGED, *CHARGED_BY.values(), CHARGES_STAY,
                    ATTACHED_CLEARED, CLEARED_AT_RECLAIM, CLEARED_AFTER_REST, CLEARED_WAITING]

# ---- shares and charges, in words alone or where no run comes; these and all of the above show in the cases of tests/cases/share_cases.py
DETACH_UNSHARES = "detach sets the share to 0"  # which the next attach sets anew
SHARE_MODULO, MAKING_KEEPS = "17 by words modulo 2^32", "making keeps shares and charges"
SHARE_SLIPS = [*FREE_SHARE_SLIPS, *LINE_SHARE_SLIPS, DETACH_UNSHARES, SHARE_MODULO, MAKING_KEEPS]

# ---- several links in one store, in a session's answer that the collector-free store does not give: the runs of tests/test_links.py
REVERSED, EXCHANGED = "pairs from the last to the first", "field and register of a pair exchanged"
LAST_PAIR_LEFT, BEYOND_COUNT = "the last pair left out", "pairs beyond the count stored too"
REPEATED_FIRST, REPEATED_LAST = "of a repeated field the first pair alone", "of a repeated field the last pair alone"
NINE_ALLOWED, EIGHT_REFUSED = "a count of nine done", "a count of eight refused with 10"
COUNT_FIRST, COUNT_LAST = "10 before the session tests", "10 after all pairs"
COUNT_AFTER = {number: f"10 after {number} of the record's register" for number in (8, 11)}
NONE_FIRST = "a count of 0 done before the session tests"
NONE_TESTED = {number: f"a count of 0 tested up to {number}" for number in (8, 11, 12)}
ALL_REGISTERS_FIRST, RECORD_FIRST = "registers of all pairs tested first", "the record tested before the registers of pairs"
FIELDS_FIRST = "fields of all pairs tested before the registers of later ones"
STORES_STAY, PAIR_PASSED = "pairs before a refused one stay stored", "a refused pair passed over"
LAST_REFUSAL = "the refusal of the last refused pair answered"
END_STAYS = "the list's end stays moved by a refused call"  # with 12, when the list is full
COLOURS_UNSEEN, SHADED_AGAIN = "colours not seen by later pairs", "a record shaded by an earlier pair shaded again"  # the same
PLANNED_BLIND = "every pair planned on the words as they came in"  # the same
FREE_LINK_SLIPS = [REVERSED, EXCHANGED, LAST_PAIR_LEFT, BEYOND_COUNT, REPEATED_FIRST, REPEATED_LAST, NINE_ALLOWED, EIGHT_REFUSED,
                   COUNT_FIRST, COUNT_LAST, *COUNT_AFTER.values(), NONE_FIRST, *NONE_TESTED.values(), ALL_REGISTERS_FIRST, RECORD_FIRST,
                   FIELDS_FIRST, STORES_STAY, PAIR_PASSED, LAST_REFUSAL, END_STAYS, COLOURS_UNSEEN, SHADED_AGAIN, PLANNED_BLIND]

# ---- several links, in words alone, on damage and with a full list; these and all of the above show in the cases of
# tests/cases/link_cases.py and tests/cases/link_overlap_cases.py
LIST_STAYS, SHADING_STAYS = "list entries stay written by a refused call", "records stay shaded and listed by a refused call"
END_UNSEEN = "room in the list counted from its end before the call"
FIELDS_UNSEEN, COPIES_UNSEEN = "stored words not seen by later pairs", "words stored in the replica not seen by later pairs"
OLD_OF_BEFORE, RECORD_ONCE = "old as it was before the call", "the record followed for the first pair alone"
LINK_SLIPS = [*FREE_LINK_SLIPS, LIST_STAYS, SHADING_STAYS, END_UNSEEN, FIELDS_UNSEEN, COPIES_UNSEEN, OLD_OF_BEFORE, RECORD_ONCE]

# ---- all in what is shaded and marked
MARKING_SLIPS = MISSED_SLIPS + LINE_SLIPS + FULL_LIST_SLIPS + WORD_SLIPS
# together they are the rules as they were before request [3]
BEFORE = [MARKS_CLEARED, ATTACHED_UNSCANNED, OLD_LEFT, OLD_LEFT_AT_3]
