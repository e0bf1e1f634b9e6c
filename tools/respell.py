#!/usr/bin/env python3
"""Respells the names of this repository's definitions and lemmas as today's Rattle spells them: snake case, and a dash only
between two names, as in `length-reads`.

usage: python3 tools/respell.py [FOLDER]

It goes by text over the .antt and .rt files below FOLDER/crates (default: the folder above this script), to be run once, after the
kit's own port.py. Functions of src/, strings, inputs and outputs keep their names. Where the plain new name is already that of a
function of src/ beside it, the definition has another one (as `payload_in` beside the function `payload_of`).
"""
import os
import re
import sys

# definitions, renamed wherever they stand
DEFINITIONS = """
    admitsAll=admits_all admitsBand=admits_band admitsMask=admits_mask admitsPrize=admits_prize afterEntry=after_entry
    afterLoad=after_load aliveAt=alive_at aliveFrom=alive_from allAdmitted=all_admitted answerAt=answer_at
    answerLine=answer_line answerLines=answer_lines answersIn=answers_in answersOf=answers_for askResult=ask_result
    asksBands=asks_bands asksFirst=asks_first asksMask=asks_mask asksPayout=asks_payout badRecord=bad_record badWord=bad_word
    bandsKind=bands_kind bandsText=bands_text basisOf=basis_of bookText=book_text capacityOf=capacity_of closedRow=closed_row
    countLines=lines_of_counts countsText=text_of_counts deepestOf=deepest_of endStep=end_step entriesFrom=entries_from
    equalTo=equal_to exampleBook=example_book factCount=fact_count factIn=fact_within factNumber=numbered_fact factsAt=facts_at
    faultIn=fault_in faultNumber=fault_number firstFact=first_fact firstFrom=first_from firstLine=first_line
    firstOver=first_crowded firstQuestion=first_question firstSuits=first_suits firstUnfit=first_unsuited givenBack=given_back
    groupSize=group_size hasEven=has_even hasOdd=has_odd headWord=head_word_of heightIn=height_in heightOf=height_of
    heightsOf=heights_of highRow=high_row isFact=is_fact isHead=is_head isPiece=is_piece isQuestion=is_question
    isSecond=is_second isSum=is_sum isThere=is_there isWithdrawal=is_withdrawal judgeKind=judge_kind judgeSolve=judge_solve
    judgeTables=judge_tables keepOutcome=keep_outcome lentSizes=lent_sizes loadResult=load_result loadsFrom=loads_from
    lowRow=low_row masksKind=masks_kind masksOf=masks_of masksText=masks_text nodeFacts=node_facts nodesFrom=nodes_from
    numbersBelow=numbers_below numbersIf=numbers_if numbersOf=numbers_of oddOf=odd_of oneMore=one_more
    outcomeText=text_of_outcome parentInside=parent_inside pathSum=path_sum payloadOf=payload_in pieceCount=span_piece_count
    pieceTotal=piece_total piecesBelow=pieces_below piecesIn=pieces_within placeAt=place_at popResult=pop_result
    popStack=pop_stack prizesKind=prizes_kind pushResult=push_result pushStack=push_stack pushTally=push_tally
    putAfter=put_after putResult=put_result questionAt=question_at questionCount=question_count questionNumber=numbered_question
    questionOf=question_of recordOf=record_in recordWith=record_with recordWords=record_words recordsOf=records_of
    refusalNumber=refusal_number refusedAt=refused_at refusedLine=refused_line refusedText=refused_text relationBy=relation_by
    relationResult=relation_result reportOf=report_of rollOutcome=roll_outcome rollStack=roll_stack rootOf=root_of
    sameSide=same_side secondWord=second_word_of sizesOf=sizes_of shortTable=table_too_short showFirst=show_first shownAt=shown_at
    slotFilled=slot_filled slotFor=slot_for solveResult=solve_outcome solveTable=solve_table solveTally=solve_tally
    solvedBy=solved_by solvedIn=solved_in solvedText=solved_text soundAfter=sound_after spanAt=span_at spanIf=span_if
    spanLine=line_of_span spanLines=span_lines spanListing=listing_of_spans spanWords=span_words spannedIn=spanned_in
    spinText=spin_text stackBelow=stack_below stackTo=stack_to stepFrom=step_from tableText=table_text tablesIn=tables_in takeAfter=take_after
    takeResult=take_result tallyLines=tally_lines textOf=parts_text timesIn=times_in treeSum=tree_sum trialAnswer=trial_answer
    twoNumbers=two_numbers usedWords=used_words weightBelow=weight_below withFact=with_fact withMost=with_most
    withQuestion=with_question withRecords=with_records withRest=with_rest withSome=with_some withSpan=with_span
    withWithdrawal=with_withdrawal withdrawalCount=withdrawal_count withdrawnOf=withdrawn_of wordStep=word_step
    writtenAt=written_at writtenResult=written_result writtenTable=written_table
"""

# fields of records, renamed wherever they stand
FIELDS = """
    even-only=even_only even-walk=even_walk is-empty=is_empty is-full=is_full is-low=is_low lacks-zero=lacks_zero
    marks-left=marks_left nodes-long=nodes_long odd-only=odd_only odd-walk=odd_walk pieces-long=pieces_long
    records-left=records_left spans-long=spans_long stack-left=stack_left tally-left=tally_left zero-lacks=zero_lacks
"""

# lemmas, renamed in the files that define or import them: elsewhere the same letters may be a name that Rattle makes
LEMMAS = """
    a-top=a_top accepted-entry=accepted_entry accepted-fits=accepted_fits accepted-long=accepted_long accepted-ok=accepted_ok
    added-cleared=added_cleared added-decides=added_decides added-good=added_good added-spans=added_spans
    alive-admitted=alive_admitted alive-by-counts=alive_by_counts alive-by-spans=alive_by_spans alive-times=alive_times
    aliveFrom-append=alive_from-append all-admitted=admitted_all all-bands=all_bands all-kept=all_kept all-suit=all_suit
    alone-long=alone_long alone-parent=alone_parent alone-part=alone_part alone-place=alone_place alone-row=alone_row
    andThen-ok=and_then-ok answer-length=length-answer_line ap-admitted=ap_admitted asked-more=asked_more asked-next=asked_next
    asked-suits=asked_suits asks-here=asks_here at-end=at_end at-node=at_node at-root=at_root b-top=b_top
    back-parity=back_parity bad-head=bad_head basis-good=basis_good basis-more=basis_more basis-none=basis_none
    before-less=before_less before-question=before_question before-save=before_save beq-is=beq_is beq-self=beq_self
    bits-top=bits_top both-counted=both_counted both-text=both_text both-turned=both_turned by-band=by_band by-gone=by_gone
    by-judge=by_judge by-moved=by_moved by-same=by_same by-spans=by_spans by-table=by_table by-walks=by_walks by-ways=by_ways
    cases-stack=cases_stack chain-bound=chain_bound chain-step=chain_step climbs-climbed=climbs_climbed climbs-few=climbs_few
    climbs-low=climbs_low climbs-moved=climbs_moved climbs-on=climbs_on climbs-other=climbs_other climbs-pow=climbs_pow
    climbs-shallow=climbs_shallow climbs-size=climbs_size climbs-top=climbs_top closed-closed=closed_closed
    closed-joined=closed_joined copies-fit=copies_fit count-apart=count_apart count-here=count_here count-if=count_if
    count-more=count_more count-one=count_one count-parts=count_parts count-split=count_split count-whole=count_whole
    counted-joined=counted_joined cut-more=cut_more deeper-more=deeper_more drop-fewer=drop_fewer ended-err=ended_err
    ended-ok=ended_ok entered-count=entered_count entries-facts=entries_facts entry-fact=entry_fact
    equalTo-without=equal_to-without even-by=even_by even-closed=even_closed example-listing=example_listing
    fact-again=fact_again fact-bands=fact_bands fact-shown=fact_shown facts-here=facts_here facts-none=facts_none
    facts-other=facts_other far-low=far_low few-digits=few_digits few-links=few_links few-links-rule=few_links_rule
    few-pieces=few_pieces few-records=few_records fewer-ahead=fewer_ahead fewest-le=fewest_le fewest-made=fewest_made
    fewest-most=fewest_most fewest-prizes=fewest_prizes first-here=first_here first-later=first_later first-low=first_low
    fits-none=fits_none fits-some=fits_some from-t=from_t front-here=front_here full-result=full_result full-stack=full_stack
    full-tally=full_tally given-back-less=given_back_less gone-lt=gone_lt gone-reduced=gone_reduced gone-xor=gone_xor
    gone-zero=gone_zero good-after=good_after good-alone=good_alone good-closed=good_closed good-joined=good_joined
    good-now=good_now good-one=good_one good-rows=good_rows good-sound=good_sound good-step=good_step group-is=group_is
    group-rule=group_rule head-is=head_is head-kind=head_kind height-found=height_found heights-noted=heights_noted
    held-free=held_free held-full=held_full held-length=held_length held-less=held_less held-no=held_no held-within=held_within
    held-yes=held_yes high-most=high_most high-top=high_top in-first=in_first inside-no=inside_no inside-yes=inside_yes
    is-written=is_written join-lt=join_lt joined-then=joined_then judge-ok=judge_ok keep-first=keep_first kept-below=kept_below
    kept-times=kept_times label-joins=label_joins label-sound=label_sound laid-admitted=laid_admitted laid-here=laid_here
    laid-path=laid_path laid-sum=laid_sum laid-weight=laid_weight laid-with=laid_with lasting-all=lasting_all
    lasting-next=lasting_next lasting-push=lasting_push left-all=left_all left-more=left_more length-row=length_row
    length-sum=length_sum line-length=length-two_numbers lines-most=lines_most link-other=link_other linked-none=linked_none
    load-refuses=load_refuses loads-back=loads_back loads-only-books=loads_only_books long-answers=long_answers
    long-tables=long_tables map-removed=map_removed mark-moved=mark_moved mark-stays=mark_stays marked-closed=marked_closed
    marked-joined=marked_joined merged-joins=merged_joins merged-no=merged_no merged-sound=merged_sound merged-yes=merged_yes
    more-digits=more_digits most-from=most_from most-le=most_le most-more=most_more most-most=most_most most-none=most_none
    most-reached=most_reached most-same=most_same most-stop=most_stop moved-low=moved_low moved-root=moved_root
    new-facts=new_facts new-rows=new_rows new-shaped=new_shaped new-steps=new_steps newest-now=newest_now no-parent=no_parent
    node-admitted=node_admitted none-empty=none_empty none-later=none_later none-longer=none_longer none-noted=none_noted
    none-reduced=none_reduced none-some=none_some none-sum=none_sum not-not=not_not notes-left=notes_left
    number-next=number_next numbers-count=numbers_count numbers-here=numbers_here numbers-parts=numbers_parts
    numbers-pieces=numbers_pieces numbers-range=numbers_range numbers-whole=numbers_whole odd-by=odd_by off-inside=off_inside
    often-length=often_length ok-is=ok_is old-facts=old_facts on-top=on_top one-digit=one_digit one-group=one_group
    one-load=one_load one-more-noted=one_more_noted one-more-taken=one_more_taken one-node=one_node one-part=one_part
    order-blind=order_blind others-more=others_more over-not=over_not part-row=part_row pass-accepted=pass_accepted
    pass-more=pass_more pass-room=pass_room pass-split=pass_split past-nodes=past_nodes past-spans=past_spans path-add=path_add
    path-if=path_if path-none=path_none path-pieces=path_pieces path-same=path_same pieces-all=pieces_all pieces-few=pieces_few
    pieces-front=pieces_front pieces-most=pieces_most pieces-partition=pieces_partition pieces-with=pieces_with
    place-moved=place_moved place-past=place_past pop-drop=pop_drop prizes-le=prizes_le push-result=push_result_lem
    push-stack=push_stack_lem push-tally=push_tally_lem put-none=put_none question-fits=question_fits
    questions-split=questions_split reads-split=reads_split recordOf-words=record_in-words refusal-length=length-refused_text
    refused-entry=refused_entry refused-not=refused_not related-rule=related_rule related-tells=related_tells
    rest-free=rest_free rest-gone=rest_gone rest-here=rest_here roll-back-restores=roll_back_restores room-all=room_all
    room-more=room_more room-none=room_none room-some=room_some root-most=root_most round-far=round_far round-first=round_first
    row-entry=row_entry row-most=row_most rows-alone=rows_alone rows-kept=rows_kept rows-now=rows_now same-below=same_below
    same-is=same_is same-right=same_right same-sums=same_sums saved-room=saved_room saved-row=saved_row search-on=search_on
    short-answers=short_answers short-nodes=short_nodes short-pieces=short_pieces short-reads=short_reads
    short-spans=short_spans short-take=short_take slot-clears=slot_clears slot-top=slot_top solve-right=solve_right
    solved-text=solved_text_lem solves-right=solves_right some-le=some_le some-most=some_most some-reached=some_reached
    sound-front=sound_front sound-ind=sound_ind sound-next=sound_next sound-now=sound_now soundAfter-push=sound_after-push
    span-most=span_most span-within=span_within spanned-count=spanned_count spanned-fit=spanned_fit spanned-front=spanned_front
    spanned-more=spanned_more spans-within=spans_within stack-answer=stack_answer stack-enough=stack_enough
    stack-leaf=stack_leaf stack-now=stack_now stack-right=stack_right stack-room=stack_room step-fact=step_fact
    step-inside=step_inside steps-more=steps_more steps-none=steps_none steps-now=steps_now sum-all=sum_all sum-assoc=sum_assoc
    sum-front=sum_front sum-none=sum_none sums-of-selections=sums_of_selections tabled-front=tabled_front
    tabled-less=tabled_less tabled-more=tabled_more tabled-numbers=tabled_numbers tabled-set=tabled_set tabled-with=tabled_with
    tables-suffice=tables_suffice tail-drop=tail_drop tally-length=length-tally_lines tally-now=tally_now tells-same=tells_same
    then-written=then_written thousand-one=thousand_one times-copies=times_copies times-laid=times_laid times-stack=times_stack
    to-root=to_root together-related=together_related told-all=told_all told-one=told_one top-at=top_at tree-add=tree_add
    tree-none=tree_none tree-pieces=tree_pieces tree-same=tree_same turned-over=turned_over two-parts=two_parts
    until-ends=until_ends until-le=until_le until-more=until_more until-most=until_most walk-back=walk_back
    walk-labels=walk_labels walk-moved=walk_moved walk-on=walk_on walk-then=walk_then weight-enough=weight_enough
    weight-leaf=weight_leaf weight-parts=weight_parts weight-sum=weight_sum whole-result=whole_result whole-table=whole_table
    with-count=with_count with-fit=with_fit with-more=with_more withdrawal-ok=withdrawal_ok words-at=words_at
    words-recordOf=words-record_in written-front=written_front written-head=written_head written-reads=written_reads
    written-room=written_room written-second=written_second written-text=written_text written-words=written_words
    xor-again=xor_again xor-back=xor_back xor-cancel=xor_cancel xor-turn=xor_turn zero-is-sum=zero_is_sum zero-sum=zero_sum
"""

TOKEN = re.compile(r"[A-Za-z_ℕ][A-Za-z0-9_']*(?:-[A-Za-z0-9_']+)*")
STRING = re.compile(r'"(?:[^"\\\n]|\\.)*"')


def table(text):
    return dict(pair.split("=") for pair in text.split())


def named_in(text):
    """The names that a file defines or imports."""
    names = set(re.findall(r"(?m)^\s*(?:(?:abbrev|pub|unfoldable|pattern)\s+)*([^\s:(){}]+)\s*(?:\{[^}]*\}\s*)?:\s", text))
    for braces in re.findall(r"(?m)^(?:ghost )?use [^{;\n]*\{([^}]*)\}", text):
        names |= {w.split(" as ")[0].strip() for w in braces.split(",")}
    return names


def respelled(text, everywhere, lemmas):
    here = named_in(text)
    new = dict(everywhere)
    new.update({k: v for k, v in lemmas.items() if k in here})
    swap = lambda t: TOKEN.sub(lambda m: new.get(m[0], m[0]), t)
    parts, at = [], 0
    for m in STRING.finditer(text):
        parts += [swap(text[at:m.start()]), m[0]]
        at = m.end()
    return "".join(parts) + swap(text[at:])


def main(argv):
    root = argv[0] if argv else os.path.join(os.path.dirname(os.path.abspath(__file__)), "..")
    everywhere = table(DEFINITIONS) | table(FIELDS)
    lemmas = table(LEMMAS)
    changed = 0
    for folder, dirs, files in os.walk(os.path.join(root, "crates")):
        dirs[:] = sorted(d for d in dirs if d != "out")
        for f in sorted(files):
            if f.endswith((".antt", ".rt")):
                path = os.path.join(folder, f)
                with open(path, encoding="utf-8") as it:
                    old = it.read()
                new = respelled(old, everywhere, lemmas)
                if new != old:
                    changed += 1
                    with open(path, "w", encoding="utf-8") as it:
                        it.write(new)
    print(f"respell: {changed} files changed")


if __name__ == "__main__":
    main(sys.argv[1:])
