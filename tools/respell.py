#!/usr/bin/env python3
"""Brings the names of definitions and lemmas to the spelling of the library: words in snake case, and a dash only
where a lemma's name joins the names of two definitions. A lemma that would then have the name of a definition ends
in `_lem`.

usage: python3 tools/respell.py        at the top of the repository, once, after the toolchain's port.py

It goes by whole names, in the clauses of src/ and in specs/ and proofs/, and lays each crate out again. Functions of
src/, strings, inputs and outputs keep their names. It stands here so that the move to today's Rattle can be done
again from the commit before it (docs/PORT.md); here it has been run, and a second run would turn a name twice."""

import glob
import os
import re
import subprocess
import sys

# old name=new name
DEFINITIONS = """
    accountOf=account_of afterAnswer=after_answer afterExchange=after_exchange afterLook=after_look
    afterStep=after_step answerAt=answer_at beginBy=begin_by beginCauses=begin_causes beginMoment=begin_moment
    beginPut=begin_put beginTake=begin_take begunAs=begun_as bigEndian=big_endian boardAfter=board_after byPut=by_put
    carriedOut=carried_out cellBytes=cell_bytes cellFrom=cell_from cellsBy=cells_by changesOf=changes_of
    checkedHead=checked_head dealingsOf=dealings_of exchangeAnswer=exchange_answer expectedRound=expected_round
    failureCounted=failure_counted failuresOf=failures_of faultLine=fault_line goesOn=goes_on headCauses=head_causes
    headWith=head_with hintOf=hint_of historyOf=history_of ifAccepted=if_accepted isBegin=is_begin isIdle=is_idle
    isOpen=is_open isPut=is_put isRingSize=is_ring_size isStep=is_step kindNumber=kind_number laidOut=laid_out
    laid_out=laid_out_lem largestCount=largest_count lastLook=last_look layerOf=layer_of lengthCauses=length_causes
    lineOne=line_one lineTwo=line_two logAfter=log_after logAtEnd=log_at_end lookAt=look_at makeRing=make_ring
    memoryCauses=memory_causes newAccount=new_account newBoard=new_board newRing=new_ring numbersPut=numbers_put
    numbersTaken=numbers_taken observedFrom=observed_from oneFailure=one_failure oneStep=one_step openingBy=opening_by
    openingLine=opening_line otherBytes=other_bytes othersBy=others_by othersOf=others_of outcomeOf=outcome_of
    pageCauses=page_causes pageCells=page_cells placeAt=place_at putCauses=put_causes putVerdict=put_verdict
    putsWith=puts_with rewrittenBy=rewritten_by ringAfter=ring_after ringAtEnd=ring_at_end ringLine=ring_line
    ringOf=ring_of runAlone=run_alone runCauses=run_causes runMoments=run_moments seatAt=seat_at seatCauses=seat_causes
    sizeCauses=size_causes standsAtLook=stands_at_look staysOpen=stays_open stepBy=step_by stepCauses=step_causes
    stepCounted=step_counted stepMoment=step_moment stepOnce=step_once stepSeat=step_seat storedBy=stored_by
    takeVerdict=take_verdict takesWith=takes_with unlessAnswered=unless_answered verdictOf=verdict_of
    withSeat=with_seat wordCells=word_cells
"""
LEMMAS = """
    accepted-by=accepted_by accepted-count=accepted_count accepted-field=accepted_field accepted-fixed=accepted_fixed
    accepted-last=accepted_last accepted-length=accepted_length accepted-power=accepted_power
    accepted-size=accepted_size accepted-version=accepted_version accepted-written=accepted_written
    aims-there=aims_there all-fresh=all_fresh all-inside=all_inside answer-inside=answer_inside
    answered-calls=answered_calls before-no=before_no before-stored=before_stored before-yes=before_yes
    begin-holds=begin_holds behind-stored=behind_stored bigEndian-after=big_endian_after
    bigEndian-number=big_endian-number busy-exchange=busy_exchange busy-look=busy_look busy-on=busy_on
    busy-seat=busy_seat call-with=call_with carried-failed=carried_failed cell-back=cell_back cell-path=cell_path
    cell-within=cell_within cells-back=cells_back cleared-page=cleared_page clipped-clear=clipped_clear
    deal-keeps=deal_keeps dealings-keep=dealings_keep decides-ring-size=decides_ring_size
    differences-none=differences_none differences-one=differences_one done-alike=done_alike done-found=done_found
    done-with=done_with drop-behind=drop_behind eight-bytes=eight_bytes empty-place=empty_place ends-look=ends_look
    every-byte-fixed=every_byte_fixed exchange-done=exchange_done exchange-fails=exchange_fails
    exchange-step=exchange_step exchanged-rises=exchanged_rises exchanged-shape=exchanged_shape
    exchanged-value=exchanged_value exchanges-le=exchanges_le expected-after-empty=expected_after_empty
    expected-after-filled=expected_after_filled failed-told=failed_told fails-with=fails_with few-looks=few_looks
    fields-checked=fields_checked filled-no=filled_no filled-yes=filled_yes first-in-first-out=first_in_first_out
    fits-from-word=fits_from_word fixed-by=fixed_by four-parts=four_parts getD-cellsIn=get_or-cells_in
    good-begin=good_begin good-lawful=good_lawful good-on=good_on good-step=good_step head-back=head_back
    header-checked=header_checked hint-inside=hint_inside hinted-inside=hinted_inside keeps-carried=keeps_carried
    keeps-ready=keeps_ready keeps-way=keeps_way lap-le=lap_le lap-lt=lap_lt lap-near=lap_near lap-same=lap_same
    length-bigEndian=length-big_endian length-body=length_body length-cellsIn=length-cells_in length-wrote=length_wrote
    log-end=log_end log-ended=log_ended long-front=long_front look-inside=look_inside look-outside=look_outside
    look-past-row=look_past_row look-put=look_put look-row=look_row look-step=look_step look-take=look_take
    look-windowed=look_windowed neither-means=neither_means new-fits=new_fits new-holds=new_holds new-inside=new_inside
    next-inside=next_inside next-is=next_is next-remainder=next_remainder no-filled=no_filled none-le=none_le
    not-before=not_before number-bigEndian=number-big_endian numbers-put=numbers_put_lem
    numbers-taken=numbers_taken_lem ok-is=ok_is on-answer=on_answer on-to=on_to once-le=once_le one-means=one_means
    ones-one=ones_one ones-zero=ones_zero open-call=open_call open-calls=open_calls other-changes=other_changes
    other-quiet=other_quiet others-else=others_else overwritten-all=overwritten_all overwritten-clip=overwritten_clip
    overwritten-more=overwritten_more overwritten-next=overwritten_next overwritten-none=overwritten_none
    overwritten-past=overwritten_past overwritten-whole=overwritten_whole own-begin=own_begin own-quiet=own_quiet
    own-step=own_step page-look=page_look page-others=page_others page-set=page_set power-from-ones=power_from_ones
    previous-inside=previous_inside previous-is=previous_is previous-later=previous_later previous-next=previous_next
    previous-of-later=previous_of_later previous-of-tail=previous_of_tail previous-remainder=previous_remainder
    price-failed=price_failed price-open=price_open put-cell=put_cell put-each=put_each put-exchanges=put_exchanges
    put-hint=put_hint put-none=put_none put-notes=put_notes put-onward=put_onward put-place=put_place
    put-quiet=put_quiet put-shape=put_shape put-verdict=put_verdict_lem put-worn=put_worn quiet-holds=quiet_holds
    read-cells=read_cells read-written=read_written refused-fixed=refused_fixed renewed-rises=renewed_rises
    ring-end=ring_end ring-ended=ring_ended round-trips=round_trips run-first=run_first run-goes-on=run_goes_on
    run-keeps=run_keeps runs-lawfully=runs_lawfully same-part=same_part same-puts=same_puts seat-else=seat_else
    seat-here=seat_here seat-inside=seat_inside seat-within=seat_within set-cellsIn=set-cells_in set-rises=set_rises
    settled-keeps=settled_keeps since-begin=since_begin since-else=since_else since-own=since_own
    size-bounds=size_bounds size-from-ones=size_from_ones sized-page=sized_page some-earlier=some_earlier
    stays-inside=stays_inside step-holds=step_holds step-inside=step_inside steps-told=steps_told
    take-before=take_before take-cell=take_cell take-each=take_each take-exchanges=take_exchanges take-hint=take_hint
    take-not-worn=take_not_worn take-onward=take_onward take-place=take_place take-set-lt=take-set_lt
    take-shape=take_shape take-verdict=take_verdict_lem taken-one=taken_one taken-quiet=taken_quiet
    tied-begin=tied_begin tied-step=tied_step two-means=two_means value-fits=value_fits whole-after=whole_after
    whole-cleared=whole_cleared windowed-stored=windowed_stored with-inside=with_inside within-page=within_page
    written-page=written_page
"""

# a string, or a name: what stands between white space, brackets and stops
TOKEN = re.compile(r'"[^"]*"|[^\s(){}\[\],;."]+')


def table(text):
    return dict(pair.split("=") for pair in text.split())


def respelled(line, names):
    return TOKEN.sub(lambda m: names.get(m[0], m[0]), line)


def main():
    definitions = table(DEFINITIONS)
    names = definitions | table(LEMMAS)
    new = list(names.values())
    if len(set(new)) != len(new):
        sys.exit("two names fall together")
    for path in sorted(glob.glob("crates/*/**/*", recursive=True)):
        if not path.endswith((".antt", ".rt", ".edit")):
            continue
        with open(path, encoding="utf-8") as f:
            old = f.read()
        # in comments a dash joins plain words
        turned = "".join(
            respelled(line, definitions if line.lstrip().startswith(("--", "//")) else names)
            for line in old.splitlines(keepends=True)
        )
        if turned != old:
            with open(path, "w", encoding="utf-8") as f:
                f.write(turned)
    for crate in sorted(os.listdir("crates")):
        subprocess.run(["rt", "fmt"], cwd=os.path.join("crates", crate), check=True)


if __name__ == "__main__":
    main()
