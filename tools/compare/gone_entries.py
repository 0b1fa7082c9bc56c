"""What states the promise of what is gone. A key is a place and the names there, apart by spaces; names of NOW stand in backquotes and are looked up."""

ENTRIES = {
    # ---- functions
    "logs::": {
        "to_word_of": "`ToWord::from`, whose `from_gives` has both clauses",
        "answer_of": "the contract of `read_hearing`: `read_answer result ≡ questions most log.now`",
    },
    "link_count::": {
        "answer_of": "the contract of `link_count_within`: `count_answer result ≡ count_asked most log.now`",
        "count_to_stop": "the contract of `Questions::first_stop`, of any hearer: `Stopped`, and the links before the place are heard; `Counted` says what a `Counter` has heard",
        "LinkCount": "`Result<usize, Refusal>`, of which `count_answer` gives the answer",
    },
    "copying::": {
        "take_group": "the contract of `mark_block`, which asks each group for its block, and that of `mark_group`; `group_passed` is of the groups of other blocks",
        "copy_row": "the clauses of the closure in `write_copy`, which have both of its clauses",
        "write_group": "the contract of `write_links`, of its to words, and that of `put_from`, which makes `GroupWritten` of these",
    },
    "trimming::": {
        "write_rows": "the contract of `copying::write_groups`, of any calls; `write_trimmed` makes these",
    },
    "writing::": {
        "chain_start": "`Chains::start_of`: `StartOf`, as before",
    },
    "input::": {
        "wide": "the contract of `word_at`; the conversion is std's `from_le_bytes`",
        "Taken": "`Result<usize, Refusal>`, of which `taken_answer` gives the answer",
    },
    "fair_copy::": {
        "CopyOutcome": "`Result<usize, Refusal>`, of which `copy_answer` gives the answer",
    },
    "trimmed_copy::": {
        "solve": "the contract of `report::solve`, of any answer, at that of `trimmed_copy::answer`",
        "TrimOutcome": "`Result<usize, Refusal>`, of which `trim_answer` gives the answer; a loop is the refusal with the reason `Loop` at its length",
    },
    "searching::": {},
    "trials::": {
        "fill": "the closures that `filled` takes; each word is made by `Kind::word`, which asks for a small number",
        "place_of": "`split_once`, whose `ensures` has all three clauses",
        "lending": "`call`, and the invariant `within` of `Call`",
        "call": "`Call::make`; what it asked of the lengths is the invariant `within` of `Call`",
        "differ": "`Strays::among`, which counts them",
        "expect_cleared": "`write_cleared`, which takes an array of 16,400 words",
        "HEAD FROM TO END": "`Kind::word`",
    },
    # ---- definitions
    "copying/specs/Copying.antt": {
        "content_before": "`content s.log.episodes (heard_before ..)` in `Marking`; `GroupTaken` is of any links that were heard before",
    },
    "link_count/specs/Counted.antt": {
        "LinksStopped": "`Stopped` in the contract of `Questions::first_stop`, with the links before the place heard, and `Counted`, which has the field `counted` as it was",
    },
    "reach/specs/Reach.antt": {
        "MarkedBefore": "`Marked (links_before l p)`",
    },
    # ---- lemmas: bits
    "bits/proofs/Fill.antt": {"all_filled": "the contract of `bits::clear`; the loop is std's `fill`"},
    "bits/proofs/Digits.antt": {
        "rest_below": "`LowestTaken.below`, which `lowest_taken` gives",
        "rest_less": "`lowest_less`",
    },
    "bits/proofs/Rows.antt": {
        "row_joined": "the contract of `bits::join_row`, which the check finds",
        "adding_more gaining_more": "`joining_more`, which the loop of `bits::join` takes; for a row that is part of a buffer `row_gained`",
        "Copying copying_none copying_more": "the contract of `bits::copy_row`: std's `copy_from_slice`, and of the words around `put_before`, `put_behind` and `put_here`",
        "NoneBefore first_here none_here": "`NoneFrom`, `none_then_first` and `none_then_none`, which are of any row of words and any first place",
        "new_in digit_new new_found new_none new_lt word_passed NoneNew": "`none_then_first` and `none_then_none` of the bits that one row has and another has not, and `first_new`, which makes `NextNew` of these",
        "fresh digit_fresh": "`digit_without`, and the contract of `bits::without`, digit by digit",
        "fresh_one fresh_zero bit_fresh": "`new_bit`, `new_word` and `first_new`",
    },
    # ---- chains
    "chains/proofs/Cycle.antt": {"selves_matching": "the contract of `chains::find_loop`: that a search may begin there is a goal at its call of `extend`, which the check finds"},
    "chains/proofs/Extending.antt": {
        "left_at": "`left` is an `abbrev` by cases now, and says it itself",
        "going_first": "`going_start`, then `going_more`",
    },
    "chains/proofs/Joining.antt": {"joining_start": "the contract of `chains::extend_all`; that `Joining` holds at first the check finds"},
    "chains/proofs/Looping.antt": {"sized": "`Sized` in the contract of `chains::find_loop`", "extend_asked": "the contract of `chains::find_loop`: the goal at its call of `extend`, which the check finds"},
    "chains/proofs/Members.antt": {"both open_by": "`member_open` and `open_member`, of which they were steps"},
    "chains/proofs/Pairs.antt": {
        "pairing_skip pair_none": "the contract of `chains::pair`; the case without a new item the check finds",
        "pairs_start pairs_done": "the contract of `chains::first_pairs`; how its loop begins and ends the check finds",
        "paired_from": "`paired_more`",
    },
    "chains/proofs/Selves.antt": {
        "Selving selving_none selving_skip selving_more selving_done": "the contract of `chains::behind_itself`, `SelvesIn`; the invariant stands in `chains/proofs/behind_itself/Invariants.antt`, and the check finds the rest",
    },
    # ---- copying
    "copying/proofs/Copies.antt": {"links_few": "`links_small` and `length_group_links`", "copying_all": "the contract of `copying::write_groups`; the fields of `Copying` at the last episode, which the check finds"},
    "copying/proofs/Rows.antt": {"row_words": "`row_written`, of the to words of a group, and `row_marks`, of their count", "lowered_less lowered_same mark_stored mark_kept": "the contract of `copying::lower`, which the check finds", "group_first": "the contract of `copying::mark_group`; that `GroupTaken` holds of no words the check finds", "cleared_block": "the type `[u32; BLOCK]`, and `marks_none`", "passed_few": "`few_episodes`, and the clause `log.episodes ≤ 256` of `copying::write_copy`; `graph_episodes` says that these are the graph's"},
    "copying/proofs/Groups.antt": {
        "group_first group_links_lem": "`from_put`, of all links that were written",
        "group_none group_no_links": "`from_left`, of all links that were written",
        "all size words": "the contract of `copying::write_links`, which the check finds",
    },
    # ---- input
    "input/proofs/Asked.antt": {"too_many no_fours too_short enough": "the contract of `input::words_of`, `WordsTaken`; each answer the check finds, since `bytes_asked` is an `abbrev`"},
    "input/proofs/Words.antt": {"none_written": "the contract of `input::fill`; that `Written` holds at first the check finds"},
    # ---- link_count
    "link_count/proofs/Counting.antt": {
        "Counting": "`Counted`, of any links that were heard",
        "counting_start": "`none_counted`, and `heard_none` of the log's words",
        "counting_from": "`heard_from` in `logs/proofs/Hearing.antt`: at a from word no link is heard",
        "counting_to": "`one_counted`, and `next_link` with `heard_on` of the log's words",
        "head_refused": "the contract of `logs::read_hearing`, clause `answer`",
        "head_few": "the goals of `logs::read_hearing`, which the check finds",
        "links_stopped": "`word_stopped` and `all_links`, and the contract of `logs::read_hearing`",
    },
    # ---- logs
    "logs/proofs/Asked.antt": {
        "denied answered": "`question`, which is an `abbrev` and says it itself",
        "no_head too_many head_taken": "the contract of `logs::head_word`, by cases of its answer",
        "no_end miscounted end_passed": "the contract of `logs::end_word`; of an end that passes also `end_given`",
        "not_last is_last": "the contract of `logs::to_before_last`",
    },
    "logs/proofs/Walk.antt": {"no_words words_more": "the contract of `logs::group_end`; what its loop keeps the check finds"},
    "logs/proofs/Whole.antt": {
        "head_given_up": "the contract of `logs::read_hearing`, clause `answer`, by `head_first`",
        "behind_head": "`head_first` and `word_stopped`",
    },
    # ---- parsing
    "parsing/proofs/Wholes.antt": {"is_whole": "`count_test`, of which it was the case `true`"},
    # ---- trimming
    "trimming/proofs/Joining.antt": {"link_digit old_digit": "`new_digit`, of both"},
    "trimming/proofs/Rows.antt": {"fresh_test": "`new_test`", "group_holds": "`links_fewer`, in `copying/proofs/Linked.antt`"},
    # ---- reach
    "reach/proofs/Rounds.antt": {"round_start": "the contract of `reach::close_round`; that `InRound` holds at first the check finds"},
    "reach/proofs/Reached.antt": {"matrix_copied": "`matrix_same`, between any two places", "rising_reached": "the contract of `reach::reach_ways`; the case of links that rise the check finds", "copying_end": "the contract of `reach::copy_links`: std's `copy_from_slice`"},
    # ---- report
    "report/proofs/Asked.antt": {"asked_short_output asked_short_work": "`asked_read`, with `lent` by cases"},
    "report/proofs/Answers.antt": {"none_sought": "`LoopSought` by cases, in the contract of `report::show_loop`", "still_ready": "`LoopSought` by cases: where there is no loop the work words are as before"},
    "report/proofs/Calls.antt": {
        "told": "the contract of `report::report_asked`, in one clause",
        "passed_log": "the fact `passes` of a `Log`",
        "left_short_output left_short_work": "the contract of `report::lent`, and `left_denied`, which is of refusals 1 to 12 now",
    },
    # ---- rising
    "rising/proofs/Rising.antt": {
        "taken": "a word of `bits::row_without`, whose contract is `RowLess`",
        "Taking taking_start taking_on": "the contract of `bits::row_without`, which the check finds, and of the words around `put_before` and `put_behind`",
        "taking_end": "`ends_taken`",
        "rise_more": "`rise_test`, of all rows at once, and the contract of `row_rises`, which the check finds",
        "links_still": "`all_still`: nothing but the row of ways of `a` changes",
        "noted_none noted_link": "the contract of `rising::note_linked`, which the check finds",
    },
    # ---- searching
    "searching/proofs/Deads.antt": {"dead_none": "the goals of `chains::extend_all` and `chains::find_loop`, which the check finds"},
    "searching/proofs/Frames.antt": {"queue_behind": "`Outside.behind`"},
    "searching/proofs/Looking.antt": {"w₀ queued_outside source": "`looking_start`, of which they were steps; it is of the words `set e queue_at a`"},
    "searching/proofs/Relations.antt": {"new_was": "`searching_within`, of which it was a step"},
    "searching/proofs/Showing.antt": {
        "shown_to": "`showing_more` and `showing_end`: what the item has before the next new one was seen",
        "showing_next": "`showing_more`",
        "showing_start": "the contract of `searching::show`; that `Showing` holds at first the check finds",
        "prev_is": "`Saw.prev_same`, which `SawIn` has",
    },
    "searching/proofs/Words.antt": {
        "seen_words queued_words seen_word seen_bit seen_via seen_prev seen_outside saw_first saw_queued": "the contract of `searching::see`, `SawIn`, which the check finds by `bit_stored`",
        "pair_words put": "the contract of `searching::put_behind`, `PutIn`, which the check finds",
    },
    # ---- threads
    "threads/proofs/ThreadCalls.antt": {"no_report": "the contract of `threads::find_thread`, clause `number`; the case of 16 the check finds"},
    # ---- writing
    "writing/proofs/Apart.antt": {"apart_done": "the contract of `Chains::write_apart`, `ApartWritten`; its end the check finds by `Listing`"},
    "writing/proofs/Bundling.antt": {
        "bundling_at": "the goals of `Chains::write_threads`, which the check finds",
        "bundling_ends": "the contract of `Chains::write_threads`, `ThreadsWritten`; its end the check finds by `Bundling`",
    },
    "writing/proofs/Filling.antt": {"filling_at": "the goals of `Chains::write_thread`, which the check finds"},
    "writing/proofs/Hops.antt": {
        "none_set": "`hop_next` and `hop_done`, of which it was a step",
        "hop_first": "the contract of `Chains::hop`; that `Hopping` holds at first the check finds",
        "hop_there": "the contract of `Chains::hop`, `HopTo`; the case of a link the check finds",
    },
    "writing/proofs/Starts.antt": {
        "n here y": "`start_more` and `start_less` have them as arguments",
        "start_done": "the contract of `Chains::start_of`, `StartOf`; its end the check finds by `Starting`",
    },
    "writing/proofs/Stepping.antt": {"stepping_none": "the contract of `Chains::write_path`; that `Stepping` holds at first the check finds"},
    "writing/proofs/Tests.antt": {"behind by unseen test_seen test_end test_behind": "the contract of `Chains::is_member`, which the check finds by `bit_lt`"},
    # ---- zohapy
    "zohapy/proofs/Numbers.antt": {
        "told_numbers": "the contracts of the exported functions; that of `Answer::from`, which tells a result in numbers",
        "by_length": "the contract of `zohapy_thread`, which the check finds",
    },
}
