#!/usr/bin/env python3
"""Brings the names of definitions, lemmas and their fields to today's spelling: words in snake case, facts and types in
camel case. Run once at the top of the repository, after the kit's own port.py; it rewrites files in place.

Names of Rust code, strings, inputs and outputs stay. A name is respelled where it stands as code: in specs/ and proofs/,
in what .rt files say of contracts, in the lines of edits, and between backquotes in the pages."""

import os
import re
import sys

# Old name = new name. Where the plain respelling is a Rust function's name, or two names would become one, the new name says
# more than the old one did.
NAMES = """
Hyperperiod-is-least-common-multiple=HyperperiodIsLeastCommonMultiple
One-hyperperiod-is-enough=OneHyperperiodIsEnough Ranks-are-apart=RanksAreApart
Search-finds-the-least=SearchFindsTheLeast Test-by-deadline-is-exact=TestByDeadlineIsExact
Test-by-rank-is-exact=TestByRankIsExact Worked-examples=WorkedExamples a-attempt=a_attempt
a-by-deadline=a_by_deadline a-costs=a_costs a-demand=a_demand a-load=a_load a-overload=a_overload
a-overload-hyperperiod=a_overload_hyperperiod a-overload-load=a_overload_load a-ranks=a_ranks
a-shorter=a_shorter a-taken=a_taken a-witnesses=a_witnesses accepts-is=accepts_is admitted-by=admitted_by
adopt-at=adopt_at adopt-next=adopt_next adoptAnswer=adopt_answer_of adopted-at=adopted_at
adopted-length=adopted_length adopted-limits=adopted_limits adoptedTask=adopted_task_of
adoptedTasks=adopted_tasks_of afterEvent=after_event afterPuts=after_puts afterTick=after_tick
all-four=all_four all-in-time=all_in_time all-lawful=all_lawful all-met=all_met answerText=answer_text
answerUnder=answer_under answered-by=answered_by answered-more=answered_more answeredAll=answered_all
answers-take=answers_take apart-booked=apart_booked arityOf=arity_of asked-yes=asked_yes atRest=is_at_rest
attempt-all=attempt_all attempt-more=attempt_more attempt-most=attempt_most attempt-some=attempt_some
attemptOf=attempt_of attemptTicks=attempt_ticks_of batch-kept=batch_kept batchIn=batch_in batchOf=batch_of
before-from=before_from before-total=before_total before-trans=before_trans before-yes=before_yes
begun-before=begun_before begun-outside=begun_outside best-chosen=best_chosen best-first=best_first
best-inside=best_inside best-more=best_more best-ranked=best_ranked best-skip=best_skip best-with=best_with
betterOf=better_of between-later=between_later between-parts=between_parts bit-small=bit_small
book-kept=book_kept by-deadline=by_deadline byRank=goes_by_rank cellModel=cell_model cellRules=cell_rules
charge-at-most=charge_at_most chargeByDeadline=charge_by_deadline chargeByRank=charge_by_rank
chargeShare=charge_share chargeWithin=charge_within chart-more=chart_more choice-ticks=choice_ticks
choiceTick=choice_tick chosen-alike=chosen_alike chosen-best=chosen_best clock-is=clock_is
close-after=close_after close-answer=close_answer_lem close-fits=close_fits_book close-held=close_held
close-next=close_next closeAnswer=close_answer_of closeFits=close_fits closed-more=closed_more
closes-none=closes_none closingIn=closing_in committedTo=committed_to common-from=common_from
common-true=common_true commonMultiple=common_multiple contentsAfter=contents_after cost-all=cost_all
cost-limits=cost_limits cost-more=cost_more count-due=count_due count-gains=count_gains
count-length=count_length count-more=count_more count-since=count_since countBelow=count_below
counts-on=counts_on deadline-asymmetric=deadline_asymmetric deadline-exact=deadline_exact
deadline-most=deadline_most deadline-some=deadline_some deadlines-by-rank=deadlines_by_rank_lem
deadlines-earliest-first=deadlines_earliest_first_lem deadlines-kept=deadlines_kept deadlinesNo=deadlines_no
demand-later=demand_later demand-later-by-deadline=demand_later_by_deadline demand-steady=demand_steady
demand-sum=demand_sum demand-zero=demand_zero demandAnswer=demand_answer_of
demandByDeadline=demand_by_deadline demandByRank=demand_by_rank demandOf=demand_of
demandUpToRank=demand_up_to_rank demanded-is=demanded_is done-is=done_is done-left=done_left
done-rest=done_rest drop-next=drop_next due-before=due_before due-demand=due_demand due-fit=due_fit
due-horizon=due_horizon due-passes=due_passes due-run=due_run dueBy=due_by dueCalls=due_calls
dueLevel=due_level duePlans=due_plans dueTasks=due_tasks each-kept=each_kept each-place=each_place
each-release=each_release each-tick=each_tick empty-sound=empty_sound emptyTable=empty_table
enough-down=enough_down enough-until=enough_until enough-up-to=enough_up_to entered-more=entered_more
entered-none=entered_none eventNumber=event_number eventObject=event_object eventWord=event_word
feedTick=feed_tick few-releases=few_releases fewer-flags=fewer_flags fill-image=fill_image
fill-listed=fill_listed fill-mapped=fill_mapped finish-more=finish_more finished-after=finished_after
finished-here=finished_here finished-is=finished_is finished-more=finished_more finishedIn=finished_in
first-in=first_in first-missing=first_missing first-no-left=first_no_left first-no-right=first_no_right
first-none=first_none first-works=first_works firstBelow=first_below firstFrom=first_from firstNo=first_no
fits-begun=fits_begun fits-but=fits_but flag-fits=flag_fits flag-last=flag_last flagOf=flag_of
flags-grow=flags_grow four-short=four_short fresh-agrees=fresh_agrees freshBatch=fresh_batch
freshBook=fresh_book front-is=front_is gcd-base=gcd_base gcd-pos=gcd_pos gcd-step=gcd_step
goesBefore=comes_before goesBy=goes_by good-push=good_push good-without=good_without goodIn=good_in
granted-at-most=granted_at_most has-hyperperiod=has_hyperperiod has-witness=has_witness held-is=held_is
heldAfter=held_after heldAll=held_all holdsA=holds_a hyperperiod-found=hyperperiod_found
hyperperiod-is=hyperperiod_is hyperperiod-long=hyperperiod_long hyperperiod-missing=hyperperiod_missing
hyperperiod-more=hyperperiod_more hyperperiod-none=hyperperiod_none hyperperiodNo=hyperperiod_no
hyperperiodOf=hyperperiod_of idle-agrees=idle_agrees idle-fits=idle_fits idle-ticks=idle_ticks
idleTick=idle_tick idled-sound=idled_sound idled-tallied=idled_tallied in-steps=in_steps in-time=in_time
inAttempt=in_attempt inState=in_state inStep=in_step is-other=is_other isDone=is_done isGood=is_good
isOpen=is_open isRetry=is_retry_event job-here=job_here job-other=job_other jobs-are=jobs_are
jobs-later=jobs_later jobs-same=jobs_same jobs-small=jobs_small kept-brought=kept_brought
last-cases=last_cases last-early=last_early last-first=last_first last-is=last_is last-new=last_new
last-other=last_other last-pending=last_pending last-there=last_there last-was=last_was
last-worked=last_worked latest-in-time=latest_in_time latest-kept=latest_kept law-push=law_push lcm-is=lcm_is
lcm-pos=lcm_pos leastOverrun=least_overrun leastUpTo=least_up_to leastWitness=least_witness ledgerOf=ledger_of
ledgerTicked=ledger_ticked left-begun=left_begun left-fits=left_fits left-new=left_new
left-released=left_released left-same=left_same leftAfter=left_after leftIn=left_in leftIn'=left_in'
length-kept=length_kept length-places=length_places length-total=length_total
less-at-multiple=less_at_multiple less-elsewhere=less_elsewhere listAfter=list_after lists-are=lists_are
lists-more=lists_more listsAfter=lists_after listsAll=lists_all longest-all=longest_all
longest-more=longest_more longest-of=longest_of longestAttempt=longest_attempt_of loop-end=loop_end
loop-more=loop_more loop-rest=loop_rest lower-from=lower_from lower-no=lower_no lower-trans=lower_trans
lower-upper=lower_upper lower-yes=lower_yes lowered-apart=lowered_apart lowered-below=lowered_below
lowestUnmet=lowest_unmet mapped-none=mapped_none max-more=max_more maxBelow=max_below
meets-by-deadline=meets_by_deadline meets-by-rank=meets_by_rank modelAfter=model_after more-seen=more_seen
more-spoils=more_spoils moreUrgent=is_more_urgent my-flag=my_flag my-owes=my_owes needed-is=needed_is
needs-begun=needs_begun needs-none=needs_none needs-some=needs_some never-self=never_self
new-brought=new_brought new-owes=new_owes new-spoils=new_spoils newMachine=new_machine
newest-release=newest_release newly-seen=newly_seen no-is=no_is no-release=no_release
noAdoptedTask=no_adopted_task noJob=no_job noSegment=no_segment noTask=no_task noTokens=no_tokens
none-answer=none_answer none-held=none_held none-lower=none_lower none-missed=none_missed
none-pending=none_pending none-short=none_short none-some=none_some none-twice=none_twice
none-unmet=none_unmet none-waits=none_waits not-committed=not_committed not-met=not_met not-now=not_now
now-early=now_early now-flags=now_flags now-last=now_last nth-front=nth_front objectExists=has_object
objects-drop=objects_drop objects-of=objects_of ofSide=of_side ok-err=ok_err on-time=on_time onTo=on_to
one-hyperperiod=one_hyperperiod one-short=one_short one-waits=one_waits oneOr=one_or oneOr-short=one_or_short
open-held=open_held openAnswer=open_answer_of opened-sound=opened_sound opened-tallied=opened_tallied
openedBatch=opened_batch or-bit=or_bit order-asymmetric=order_asymmetric outcomeIn=outcome_in
outcomeOf=outcome_of outside-begun=outside_begun outside-rest=outside_rest overrun-is=overrun_is
overrun-none=overrun_none overrun-some=overrun_some owned-length=owned_length owns-few=owns_few
owns-some=owns_some owns-these=owns_these pair-fails=pair_fails pair-taken=pair_taken pairDue=pair_due
pairModel=pair_model pairRules=pair_rules passes-as=passes_as passes-by-deadline=passes_by_deadline
passes-by-rank=passes_by_rank pending-from=pending_from pending-here=pending_here pending-is=pending_is
pending-outcome=pending_outcome pending-places=pending_places pending-total=pending_total
pending-view=pending_view pendingAt=pending_at pendingIn=pending_in period-most=period_most
period-some=period_some place-apart=place_apart place-below=place_below plan-front=plan_front plan-is=plan_is
plansOf=plans_of_tasks preemptions-is=preemptions_is preempts-first=preempts_first preempts-is=preempts_is
preempts-new=preempts_new preempts-none=preempts_none preempts-one=preempts_one queue-accepts=queue_accepts
queue-misses=queue_misses queue-refuses=queue_refuses queue-waits=queue_waits queueChange=queue_change
queueModel=queue_model queueRules=queue_rules quiet-owes=quiet_owes rangeFits=has_fit_range
rank-asymmetric=rank_asymmetric rank-exact=rank_exact rankKey=rank_key_of rankLevel=rank_level
ranked-fit=ranked_fit ranked-passes=ranked_passes ranked-place=ranked_place ranked-run=ranked_run
rankedBefore=is_ranked_before rankedCalls=ranked_calls rankedPlans=ranked_plans rankedTasks=ranked_tasks
ranksNo=ranks_no readAnswer=read_answer_of readingAt=reading_at readings-same=readings_same
readingsAfter=readings_after record-starts=record_starts record-ticks=record_ticks records-idle=records_idle
records-run=records_run_lem release-agrees=release_agrees release-at=release_at release-kept=release_kept
release-new=release_new release-next=release_next releaseAnswer=release_answer_of releaseFits=release_fits
releaseNo=release_no releaseOf=release_of released-by=released_by released-covers=released_covers
released-is=released_is released-kept=released_kept released-quiet=released_quiet
released-sound=released_sound released-tallied=released_tallied releasedAt=released_at
releasedBatch=released_batch releasedIn=released_in releases-are=releases_are releases-is=releases_is
releases-kept=releases_kept releases-more=releases_more releases-new=releases_new releases-same=releases_same
releases-total=releases_total releasesAt=releases_at releasesOf=releases_of releasingIn=releasing_in
rest-is=rest_is resting-here=resting_here retries-bounded=retries_bounded_lem retries-is=retries_is
retries-one=retries_one retriesBy=retries_by ruleNumbered=rule_of_number run-answers=run_answers
run-deadlines=run_deadlines run-early=run_early run-kept=run_kept run-law=run_law run-reading=run_reading
run-sums=run_sums runBefore=run_before runEnd=run_end runMiddle=run_middle runStart=run_start
runs-of-records=runs_of_records saidText=said_text same-call=same_call search-least=search_least
second-works=second_works seen-later=seen_later seenBy=seen_by seenIn=seen_in segment-limits=segment_limits
segments-fine=segments_fine segments-limits=segments_limits segments-next=segments_next
segments-object=segments_object segments-size=segments_size segmentsA=segments_of_a segmentsNo=segments_no
short-more=short_more shown-not=shown_not since-parts=since_parts sizeFits=has_fit_size some-false=some_false
some-from=some_from some-none=some_none some-released=some_released some-steps=some_steps some-true=some_true
someBelow=some_below spaced-later=spaced_later spaced-may=spaced_may spaced-newest=spaced_newest
spaced-next=spaced_next stale-same=stale_same stampOf=stamp_of stampText=stamp_text
stamped-front=stamped_front stampedBy=stamped_by stampedList=stamped_list start-agrees=start_agrees
start-releases=start_releases started-shown=started_shown startedJob=started_job steady-between=steady_between
steady-sooner=steady_sooner steady-tick=steady_tick step-at=step_at_lem stepTick=step_tick
stepped-more=stepped_more steppedAll=stepped_all steps-fit=steps_fit stepsIn=steps_in story-law=story_law
story-more=story_more story-new=story_new sum-add=sum_add sum-all=sum_all sum-at=sum_at
sum-at-most=sum_at_most sum-const=sum_const sum-le=sum_le sum-part=sum_part sum-zero=sum_zero
sumBelow=sum_below sums-are=sums_are sumsOf=sums_of sumsText=sums_text table-limits=table_limits
tableA=table_of_a tableNo=table_no taken-sound=taken_sound task-limits=task_limits taskAt=task_at
taskNo=task_no tasks-next=tasks_next tasks-refused=tasks_refused tasksA=tasks_of_a tasksNo=tasks_no
term-later=term_later test-as=test_as testNo=test_no their-owes=their_owes three-short=three_short
tick-all=tick_all tick-at=tick_at tick-fits=tick_fits tick-made=tick_made tick-more=tick_more
tick-next=tick_next tick-none=tick_none tick-works=tick_works tickOf=tick_of tickText=tick_text
tickedIn=ticked_in tickingIn=ticking_in ticksOf=ticks_of timesFit=has_fit_times to-test=to_test
token-gone=token_gone token-good=token_good token-in=token_in token-out=token_out tokenNext=token_next
tokensClosed=tokens_closed tokensOpened=tokens_opened total-cost=total_cost total-places=total_places
totalAt=total_at totalBy=total_by turn-ticks=turn_ticks turnTick=turn_tick turned-away=turned_away
turned-over=turned_over turns-end=turns_end two-short=two_short under-way=under_way
unfinished-here=unfinished_here unfinished-new=unfinished_new unless-err=unless_err unless-ok=unless_ok
unless-value=unless_value unmet-is=unmet_is urgencyOf=urgency_of verdict-refused=verdict_refused
verdict-taken=verdict_taken verdictUnder=verdict_under view-before=view_before view-here=view_here
view-other=view_other viewAt=view_at waitingIn=waiting_in was-pending=was_pending withBatch=with_batch
withBook=with_book withCalls=with_calls withCharts=with_charts withEntries=with_entries withIdle=with_idle
withJob=with_job withLeft=with_left withLists=with_lists withRelease=with_release withTable=with_table
witness-held=witness_held witness-horizon=witness_horizon witness-is=witness_is witness-none=witness_none
witnesses-are=witnesses_are witnessesOf=witnesses_of wordFrom=word_from work-agrees=work_agrees
work-answer=work_answer work-at-most=work_at_most work-batch=work_batch work-fits=work_fits
work-model=work_model workByDeadline=work_by_deadline workByRank=work_by_rank workShare=work_share
workWithin=work_within worked-covers=worked_covers worked-fits=worked_fits worked-quiet=worked_quiet
worked-sound=worked_sound worked-tallied=worked_tallied workerAt=worker_at written-push=written_push
writtenAll=written_all wrong-after=wrong_after yesNo=yes_no_text
"""

# Names that port.py has respelled in the crates, but not in edits and pages.
PORTED = """
after-one=after_one after-push=after_push all-done=all_done all-seen=all_seen all-three=all_three
answerOf=answer_of at-front=at_front at-other=at_other at-place=at_place at-rest=at_rest at-same=at_same
before-self=before_self best-of=best_of by-rank=by_rank choiceOf=choice_of count-no=count_no
count-none=count_none count-yes=count_yes each-more=each_more entryOf=entry_of eqb-swap=eqb_swap
first-found=first_found first-of=first_of first-some=first_some flag-is=flag_is flag-same=flag_same
goes-first=goes_first goes-on=goes_on is-last=is_last isLast=is_last job-is=job_is lastOf=last_of
left-here=left_here left-is=left_is left-other=left_other leftOf=left_of lineOf=line_of
listed-same=listed_same loadOf=load_of model-is=model_is none-after=none_after none-ahead=none_ahead
none-from=none_from not-done=not_done not-first=not_first not-last=not_last not-lower=not_lower
nth-after=nth_after nth-drop=nth_drop number-is=number_is number-small=number_small one-more=one_more
open-at=open_at orderOf=order_of pair-is=pair_is part-owned=part_owned plan-after=plan_after planAt=plan_at
rank-is=rank_is rankAt=rank_at rankOf=rank_of read-more=read_more readingOf=reading_of rest-of=rest_of
room-for=room_for run-sound=run_sound same-lists=same_lists seen-more=seen_more some-same=some_same
startOf=start_of stepOf=step_of steps-of=steps_of still-seen=still_seen sum-lt=sum_lt sum-more=sum_more
sum-same=sum_same sum-step=sum_step table-is=table_is tableOf=table_of tickAnswer=tick_answer too-few=too_few
too-small=too_small viewOf=view_of withTurn=with_turn wordOf=word_of worked-kept=worked_kept
writtenBy=written_by
"""

# Names of no definition, in one place each: a record's field that would share its name with a definition, and local names.
LOCAL = {
    "crates/schedule/proofs/Moments.antt": {"is_last": "was_last"},
    "crates/schedule/proofs/Tallies.antt": {"is_last": "was_last"},
    "crates/schedule/proofs/Levels.antt": {"is_last": "was_last"},
    "crates/runs/proofs/Steps.antt": {"in-range": "in_range"},
    "crates/admission/proofs/Orders.antt": {"g-apart": "g_apart"},
}

# Names that Rattle makes and that are spelled like one of ours: a value after a branch, a call.
MADE = {
    "crates/controller/proofs/urgency/count_pending/Answers.antt": {"pending-is"},
    "crates/runs/proofs/perform/close_batch/Answers.antt": {"close-answer"},
}

TOKEN = re.compile(r"[A-Za-z_\u0370-\u03ff\u2100-\u214f][A-Za-z0-9_'\-\u0370-\u03ff\u2080-\u2089]*")
STRING = re.compile(r'("(?:[^"\\]|\\.)*")')


def pairs(text):
    return dict(word.split("=") for word in text.split())


def respelled(text, names, made=frozenset()):
    def new(match):
        word = match[0]
        if word in made and match.start() > 0 and text[match.start() - 1] == ".":
            return word
        return names.get(word, word)

    return TOKEN.sub(new, text)


def in_code(line, names, made, comment):
    code, mark, said = line.partition(comment)
    code = "".join(part if part.startswith('"') else respelled(part, names, made) for part in STRING.split(code))
    camel = {old: name for old, name in names.items() if "-" not in old}
    return code + mark + respelled(said, camel)


def in_page(line, names):
    parts = line.split("`")
    return "`".join(respelled(part, names) if i % 2 else part for i, part in enumerate(parts))


def files(top):
    for folder, inner, names in os.walk(top):
        inner[:] = sorted(d for d in inner if d not in (".git", "out", "target"))
        yield from (os.path.join(folder, name) for name in sorted(names))


def main():
    names, ported, changed = pairs(NAMES), pairs(PORTED), 0
    if len(set(names.values())) != len(names):
        sys.exit("two names become one")
    for path in files("."):
        place = os.path.relpath(path, ".")
        if not place.endswith((".antt", ".rt", ".edit", ".md")):
            continue
        with open(path, encoding="utf-8") as file:
            old = file.read()
        mine, made = names | LOCAL.get(place, {}), MADE.get(place, frozenset())
        if place.endswith((".md", ".edit")):
            mine = mine | ported
        if place.endswith(".md"):
            lines = [in_page(line, mine) for line in old.split("\n")]
        else:
            comment = "--" if place.endswith(".antt") else "//"
            lines = [in_code(line, mine, made, comment) for line in old.split("\n")]
        new = "\n".join(lines)
        if new != old:
            changed += 1
            with open(path, "w", encoding="utf-8") as file:
                file.write(new)
    print(f"{changed} files respelled")


main()
