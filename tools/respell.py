#!/usr/bin/env python3
"""Respells this repository's own definitions and lemmas: words in snake case, a dash where it joins two names.

usage: python3 tools/respell.py [FOLDER]     in place, over FOLDER (default: the repository's top)

Run once, after the library's own script. The table below is fixed, so that the same names come out of any commit.
In src/ and must-fail/ only names of definitions turn, which no function, field or type bears; in pages only what
stands in backticks.
"""
import os
import re
import sys

TABLE = """
    accessAt access_at
    accessBy access_by
    accessCounts access_counts
    accessDue access_due
    accessText access_text
    accessesOf accesses_of
    afterRS after_rs
    afterTI after_ti
    afterTU after_tu
    afterUP after_up
    agree-RS agree-rs
    agree-TU agree-tu
    agree-UP agree-up
    agree-after-RS agree-after_rs
    agree-after-TU agree-after_tu
    agree-after-UP agree-after-up
    agreeRefusal agree_refusal
    aimedGood aimed_good
    aimedText aimed_text
    aimedValue aimed_value
    alike-grammar alike_grammar
    allPass all_pass
    allSent all_sent
    allZero all_zero
    atEach at_each
    atWork at_work
    begin-honest begin_honest
    begunBy begun_by
    below-RS below-rs
    below-TU below-tu
    below-UP below-up
    belowFrom below_from
    boardCalls board_calls
    bus-word-grammar bus-word_grammar
    busAt bus_at
    busLineOf bus_line_of
    busStop bus_stop
    busWordAt bus_word_at
    byTable by_table
    cachesOf caches_of
    call-if call_if
    call-of call_of_lem
    cell0-1 cell0_1
    cell0-2 cell0_2
    cell0-6 cell0_6
    cell1-3 cell1_3
    cell1-4 cell1_4
    cell1-5 cell1_5
    cell1-6 cell1_6
    cell10-I cell10_i
    cell10-S cell10_s
    cell11-I cell11_i
    cell11-O cell11_o
    cell11-S cell11_s
    cell12-I cell12_i
    cell12-O cell12_o
    cell12-S cell12_s
    cell13-I cell13_i
    cell13-S cell13_s
    cell14-I cell14_i
    cell14-S cell14_s
    cell15-I cell15_i
    cell15-S cell15_s
    cell2-3 cell2_3
    cell2-4 cell2_4
    cell2-5 cell2_5
    cell2-6 cell2_6
    cell3-E cell3_e
    cell3-S cell3_s
    cell4-M cell4_m
    cell4-O cell4_o
    cell5-E cell5_e
    cell5-S cell5_s
    cell6-M cell6_m
    cell6-O cell6_o
    cell7-E cell7_e
    cell7-S cell7_s
    cell8-M cell8_m
    cell8-O cell8_o
    cell9-I cell9_i
    cell9-S cell9_s
    cellNumber cell_number
    cellSet cell_set
    cellSets cell_sets
    cellUse cell_use
    cellsBy cells_by
    cellsNamed cells_named
    cellsWith cells_with
    choice-grammar choice_grammar
    choiceCells choice_cells
    clears-if clears_if
    closeLine close_line
    closingLines closing_lines
    closingOf closing_of
    cons-alike cons_alike
    copiesHeld copies_held
    copiesOf copies_of
    copyCounts copy_counts
    decimal-read decimal_read
    detailText detail_text
    digitTransaction digit_transaction
    digits-ok digits_ok
    digits-other digits_other
    digits-wrong digits_wrong
    digits-zero digits_zero
    displacedIf displaced_if
    dueAccess due_access
    dueIn due_in
    emptied-caches-if emptied-caches_if
    emptiedIf emptied_if
    emptyTable empty_table
    endsMixed ends_mixed
    enteredIf entered_if
    fault-alike fault_alike
    fetchedIf fetched_if
    fillCounts fill_counts
    fillsBy fills_by
    find-fill-other find-fill_other
    find-put-other find-put_other
    find-replace-other find-replace_other
    first-not-zero first-not_zero
    firstFrom first_from
    firstLeaves first_leaves
    firstOutside first_outside
    flush-grammar flush_grammar
    flushLineAt flush_line_at
    flushed-caches-if flushed-caches_if
    flushedEach flushed_each
    flushedIf flushed_if
    flushedSeat flushed_seat
    flushedSeats flushed_seats
    flushedSet flushed_set
    flushedSet-lines flushed_set-lines
    flushedSets flushed_sets
    followed-on followed_on
    fullIn full_in
    getD-cut get_d-cut
    haltAt halt_at
    heardBy heard_by
    heardRS heard_rs
    heardTU heard_tu
    heardUP heard_up
    heldChanged held_changed
    heldIn held_in
    heldIn-put held_in-put
    ifReflected if_reflected
    in-turn in_turn_lem
    installed-other installed_other
    isDigit is_digit
    isLineEnd is_line_end
    isO is_o
    isO-owned is_o-owned
    isTable is_table
    keptFault kept_fault
    keptNumber kept_number
    keptLine kept_line
    heardX heard_x
    afterX after_x
    laws-hold laws_hold
    layerName layer_name
    layerOf layer_of
    leading-zero leading_zero
    leavesO leaves_o
    ledgerAfter ledger_after
    ledgerThen ledger_then
    length-putEach length-put_each
    length-putIn length-put_in
    let-go-if let_go-if
    letGo-free let_go-free
    letGo-good let_go-good
    letGo-honest let_go-honest
    letGo-keeps let_go-keeps
    letGo-made let_go-made
    letGo-owned let_go-owned
    letGo-told let_go-told
    letterState letter_state
    lettersOf letters_of
    lineDue line_due
    lineEnd line_end
    lineIn line_in
    lineNow line_now
    lineStop line_stop
    lineTaken line_taken
    linedGood lined_good
    linedText lined_text
    linedValue lined_value
    linesAt lines_at
    linesNow lines_now
    linesStop lines_stop
    lone-TU lone-tu
    look-put-other look-put_other
    lookDue look_due
    lostIn lost_in
    lostIn-most lost_in-most
    lostIn-self lost_in-self
    memoryLine memory_line
    memoryLineIf memory_line_if
    memoryLines memory_lines
    missed-RX missed_rx
    missedBy missed_by
    moreInvalidated more_invalidated
    mostLines most_lines
    mostPlain most_plain
    mostWaiting most_waiting
    name-utf8 name_utf8
    nameRefusal name_refusal
    namedAmong named_among
    no-fault no_fault
    no-gain no_gain
    no-progress no_progress
    noStep no_step
    numberStop number_stop
    numberedGood numbered_good
    numberedText numbered_text
    numberedValue numbered_value
    numeral-grammar numeral_grammar
    numeralAt numeral_at
    oneDisplaced one_displaced
    oneFilled one_filled
    oneFlushed one_flushed
    oneMore one_more
    oneRead one_read
    oneReflected one_reflected
    oneWrite one_write
    one_more one_more_lem
    open-view open_view
    openStop open_stop
    other-owns other_owns
    outcomeIf outcome_if
    outcomeOf outcome_of
    outsideRefusal outside_refusal
    own4-13 own4_13
    own5-15 own5_15
    owned-RS owned-rs
    owned-TI owned-ti
    owned-TU owned-tu
    owned-UP owned-up
    owned-heard-TU owned-heard_tu
    ownerFrom owner_from
    ownerOf owner_of
    ownerOrMemory owner_or_memory
    ownerWritesBack owner_writes_back
    performedOn performed_on
    placesNeeded places_needed
    plainLines plain_lines
    plainSpare plain_spare
    publishedCells published_cells
    publishedName published_name
    putEach put_each
    putEach-at put_each-at
    putEach-one put_each-one
    putEach-same put_each-same
    read-grammar read_grammar
    read-on read_on
    read-or-fault read_or_fault
    read-other read_other
    read-transactions read_transactions
    readInvalidate read_invalidate
    readInvalidate-moved read_invalidate-moved
    readLineAt read_line_at
    readShared read_shared
    readShared-moved read_shared-moved
    recordOf record_of
    recordText record_text
    recordTexts record_texts
    reflectedBy reflected_by
    repliesOf replies_of
    replyOf reply_of
    roomMade room_made
    rowView row_view
    rowsAnswer rows_answer
    savedFrom saved_from
    savedFrom-owner saved_from-owner
    secondAt second_at
    secondStop second_stop
    secondedGood seconded_good
    secondedText seconded_text
    secondedValue seconded_value
    sentBy sent_by
    sentFrom sent_from
    set-putEach set-put_each
    setCounts set_counts
    setOf set_of
    setsFrom sets_from
    settleLineAt settle_line_at
    settleOver settle_over
    setupCells setup_cells
    setupStop setup_stop
    shared-TU shared-tu
    sizedAtClosing sized_at_closing
    sizesAt sizes_at
    sizesBy sizes_by
    sizesStop sizes_stop
    spaced-word-grammar spaced_word_grammar
    spacedWordAt spaced_word_at
    standsIn stands_in
    stateAt state_at
    stateHeard state_heard
    stateIn state_in
    stateName state_name
    stateOn state_on
    statesOf states_of
    statesOn states_on
    stepLine step_line
    stepLines step_lines
    stopLine stop_line
    stopLineIf stop_line_if
    supplier-fair supplier_fair
    supplierOf supplier_of
    systemOf system_of
    tableRefusal table_refusal
    tableView table_view
    tail-grammar tail_grammar
    tail-inside tail_inside
    tailOf tail_of
    tailedGood tailed_good
    tailedText tailed_text
    tailedValue tailed_value
    take-set-in take-set_in
    takenBehind taken_behind
    tallyLine tally_line
    target-grammar target_grammar
    targetAt target_at
    targetGood target_good
    targetText target_text
    targetValue target_value
    test-alike test_alike
    throughCounts through_counts
    throughInvalidate through_invalidate
    throughInvalidate-moved through_invalidate-moved
    throughUpdate through_update
    throughUpdate-moved through_update-moved
    tidy-stateAt tidy-state_at
    tidy-wordsAt tidy-words_at
    toAccess to_access
    toBus to_bus
    toSecond to_second
    traceStop trace_stop
    transactionCounts transaction_counts
    transactionName transaction_name
    transactionsOf transactions_of
    unowned-isO unowned-is_o
    usesMixed uses_mixed
    valid-RS valid-rs
    valid-TI valid-ti
    valid-TU valid-tu
    valueOn value_on
    valueOn-ge value_on-ge
    value_on value_on_lem
    valuedGood valued_good
    valuedText valued_text
    valuedValue valued_value
    waitingIn waiting_in
    withPlace with_place
    wordAfter word_after
    wordCell word_cell
    wordCells word_cells
    wordDue word_due
    wordRefusal word_refusal
    wordStop word_stop
    wordTaken word_taken
    wordWritten word_written
    wordedGood worded_good
    wordedText worded_text
    wordedValue worded_value
    wordsAt words_at
    wordsHeard words_heard
    wordsInLine words_in_line
    wordsText words_text
    write-grammar write_grammar
    write-transactions write_transactions
    writeBack write_back
    writeBack-moved write_back-moved
    writeBack-saved write_back-saved
    writeLineAt write_line_at
    writtenAt written_at
    writtenBackIf written_back_if
    writtenBus written_bus
    writtenHeld written_held
    writtenHeld-at written_held-at
    writtenHeld-good written_held-good
    writtenIf written_if
    writtenTail written_tail
    written_at written_at_lem
    written_held written_held_lem
    zero-end zero_end
    zero-go zero_go
"""

NAMES = dict(line.split() for line in TABLE.split("\n") if line.strip())
WORD = re.compile(r"(?<![\w.·'-])[A-Za-z_][\w']*(?:-[\w']+)*|(?<=\.)[A-Za-z_][\w']*(?:-[\w']+)*")


CAMEL = re.compile(r"(?<![\w-])[a-z][a-z0-9]*(?:[A-Z][A-Za-z0-9]+)+(?![\w])")


def snake(match):
    return re.sub(r"(?<=[a-z0-9])(?=[A-Z])", "_", match.group(0)).lower()


def turned(match, known):
    word = match.group(0)
    behind_dot = match.start() > 0 and match.string[match.start() - 1] == "."
    if behind_dot and not re.search(r"[a-z0-9][A-Z]", word):
        return word
    return known.get(word, word)


def respell(text, known):
    return WORD.sub(lambda m: turned(m, known), text)


def is_definition(name):
    return "-" not in name and re.search(r"[a-z0-9][A-Z]", name) is not None


def main(top):
    definitions = {k: v for k, v in NAMES.items() if is_definition(k)}
    for folder, dirs, files in os.walk(top):
        dirs[:] = sorted(d for d in dirs if d not in (".git", "out", "tools"))
        for name in sorted(files):
            path = os.path.join(folder, name)
            if not name.endswith((".rt", ".antt", ".edit", ".md")):
                continue
            with open(path, encoding="utf-8") as f:
                old = f.read()
            if name.endswith(".antt"):
                new = respell(old, NAMES)
            elif name.endswith(".md"):
                new = re.sub(r"`[^`\n]*`", lambda m: CAMEL.sub(snake, m.group(0)), old)
            else:
                new = respell(old, definitions)
            if new != old:
                with open(path, "w", encoding="utf-8") as f:
                    f.write(new)


if __name__ == "__main__":
    main(sys.argv[1] if len(sys.argv) > 1 else os.path.join(os.path.dirname(os.path.realpath(__file__)), ".."))
