#!/usr/bin/env python3
"""Spells the definitions and lemmas of the repository as kit 13f does: words in snake case, facts in CamelCase.

usage: python3 tools/respell.py [FOLDER]      (default: the folder it is called in)

It was run once, over the commit that the kit's own port.py had made (docs/PORT.md), and goes word by word through
every .rt and .antt file below crates/ and the pages of docs/. Functions of src/, strings, inputs and outputs keep
their names: only the words of the list below are changed, each to the one word beside it.
"""

import os
import re
import sys

NAMES = dict(
    pair.split(":")
    for pair in """
    All-bits-come-back:AllBitsComeBack All-parts:AllParts All-worked-cases:AllWorkedCases Bits-come-back:BitsComeBack
    Comes-back:ComesBack Covers-bit:CoversBit Cut-frame-does-not-end:CutFrameDoesNotEnd
    Cut-frame-is-dropped:CutFrameIsDropped Data-octet-asks:DataOctetAsks Datagram-is-followed:DatagramIsFollowed
    Datagram-leaves:DatagramLeaves Each-bit-lands-once:EachBitLandsOnce Enablings-fit:EnablingsFit
    Entities-read-back:EntitiesReadBack Every-bit-served-by-one:EveryBitServedByOne Fields-read-back:FieldsReadBack
    First-octets-count:FirstOctetsCount First-octets-leave:FirstOctetsLeave Frame-ends:FrameEnds
    Frame-is-kept:FrameIsKept Frame-leaves:FrameLeaves Long-frame-is-dropped:LongFrameIsDropped
    Messages-are-whole:MessagesAreWhole Padding-leaves:PaddingLeaves Passing-is-kept:PassingIsKept
    Passing-leaves:PassingLeaves Reads-back:ReadsBack Served-by-one:ServedByOne Services-stay-sound:ServicesStaySound
    Settings-read-back:SettingsReadBack Sole-whole:SoleWhole Takes-place:TakesPlace Worked-cases:WorkedCases
    Worked-examples:WorkedExamples Worked-frames:WorkedFrames Written-bits-come-back:WrittenBitsComeBack
    accessFor:access_for accessesAt:accesses_at accessesFor:accesses_for accessesIn:accesses_in
    accessesOf:accesses_of accountOf:account_of actionOf:action_of addFetch:add_fetch addStore:add_store
    addressesOf:addresses_of addressingOf:addressing_of advancedFrame:advanced_frame afterAccesses:after_accesses
    afterDropped:after_dropped afterFetch:after_fetch afterKept:after_kept afterRead:after_read
    afterReads:after_reads afterRefusal:after_refusal afterStore:after_store afterWrite:after_write
    aliasAfter:alias_after allLasting:all_lasting alsoAsked:also_asked alsoDone:also_done alsoRefused:also_refused
    answerTo:answer_to areaSize:area_size asChannel:as_channel askedAll:asked_all askedArea:asked_area
    askedChannel:asked_channel askedMemory:asked_memory askedRegister:asked_register bareAnswer:bare_answer
    beforeThis:before_this beginStep:begin_step begunAs:begun_as begunChannel:begun_channel begunFrame:begun_frame
    begunRunning:begun_running begunStory:begun_story bitsCovered:bits_covered bufferIn:buffer_in
    bufferedFromMaster:buffered_from_master byChannel:by_channel byStory:by_story channelAt:channel_at
    channelOf:channel_of closedBy:closed_by closedReading:closed_reading closedWriting:closed_writing
    commandOf:command_of dataFrom:data_from datagramAt:datagram_at denialNumber:denial_number digitOf:digit_of
    droppedChannel:dropped_channel droppedIn:dropped_in droppedStory:dropped_story dueBegin:due_begin dueEnd:due_end
    dueLocal:due_local dueOctet:due_octet dueVerdict:due_verdict enabledAs:enabled_as enabledFrom:enabled_from
    enabledOne:enabled_one endFault:end_fault endStep:end_step endedBy:ended_by entityOctet:entity_octet
    factsIn:facts_in factsTold:facts_told fetchFree:fetch_free fetchIn:fetch_in fetchPlace:fetch_place
    fetchWindow:fetch_window fetchedAt:fetched_at fetchedBy:fetched_by fetchedIn:fetched_in fetchedMore:fetched_more
    firstAddress:first_address firstBit:first_bit firstCovered:first_covered firstOctet:first_octet
    fixedOctet:fixed_octet followedBy:followed_by forwardsNext:forwards_next frameAccesses:frame_accesses
    frameIn:frame_in frameLeft:frame_left frameOver:frame_over givenAll:given_all givenRunning:given_running
    goesOut:goes_out halfAt:half_at hasRoom:has_room heldReading:held_reading highIn:high_in holdsAt:holds_at
    inService:in_service inServiceAs:in_service_as isAddressed:is_addressed isMaster:is_master isWrite:is_write
    judgedIf:judged_if judgedWindow:judged_window keptAccount:kept_account keptBits:kept_bits keptBut:kept_but
    keptChannel:kept_channel keptChannels:kept_channels keptIn:kept_in keptStation:kept_station
    keptStories:kept_stories keptStory:kept_story kindBits:kind_bits laidWhole:laid_whole landedBy:landed_by
    landedFrom:landed_from landingIn:landing_in lastBit:last_bit lastCovered:last_covered lastFit:last_fit
    lastOctet:last_octet lastStored:latest_stored lastingKept:lasting_kept latestOver:latest_over leavesAt:leaves_at
    leavesOf:leaves_of lengthOne:length_one lengthTwo:length_two logicalBit:logical_bit_of lowIn:low_in
    mailFetched:mail_fetched mailReading:mail_reading mailStays:mail_stays mappedAccesses:mapped_accesses
    mappedFrom:mapped_from mappedOnes:mapped_ones mappedWrite:mapped_write mappedZeros:mapped_zeros
    masterStores:master_stores messageTold:message_told metAll:met_all newRegisters:new_registers newStory:new_story
    nextFrame:next_frame noEntity:no_entity noReading:no_reading noSetting:no_setting noSuchFrame:no_such_frame
    nothingYet:nothing_yet numeralOf:numeral_of octetAnswer:octet_answer octetAs:octet_as octetAt:octet_at
    octetGiven:octet_given octetOf:octet_of octetOfRegister:octet_of_register octetStep:octet_step
    octetTaken:octet_taken octetsOf:octets_of octetsOfCall:octets_of_call offsetIn:offset_in openedIf:opened_if
    orNone:or_none orSame:or_unchanged otherSide:other_side outAll:out_all outFrame:out_frame
    outOfService:out_of_service pastEnd:past_end performedAll:performed_all physicalBit:physical_bit_of
    placeBy:place_by readAfter:read_after readAs:read_as readNext:read_next readOne:read_one readOutcome:read_outcome
    readRefused:read_refused readingCancelled:reading_cancelled readingCompleted:reading_completed
    readingDone:reading_done readingDoneIf:reading_done_if readingExtent:reading_extent readsFrom:reads_from
    readsSo:reads_so readsTold:reads_told reasonNumber:reason_number refusalNumber:refusal_number
    refusedOctet:refused_octet registerAt:register_at registerOf:register_of rightWay:right_way
    rolesOpened:roles_opened runsAt:runs_at sameSide:same_side seenBy:seen_by servedBits:served_bits
    serviceAt:service_at setChannel:set_channel setEntity:set_entity settingHeld:setting_held shallRead:shall_read
    shallWrite:shall_write shownNumber:shown_number shownOpened:shown_opened statusIn:status_in statusOf:status_of
    steppedRunning:stepped_running stopBit:stop_bit_of storeFree:store_free storeIn:store_in storePlace:store_place
    storeWindow:store_window storedBy:stored_by storedIn:stored_in storyAt:story_at storyWindow:story_window
    takenBy:taken_by takenIn:taken_in talliedAll:tallied_all throughMapping:through_mapping toldAll:told_all
    toldAt:told_at toldOne:told_one toldRead:told_read toldWrite:told_write touchedBy:touched_by
    touchesAny:touches_any touchesIn:touches_in transmittedAnswer:transmitted_answer transmittedAs:transmitted_as
    transmittedOut:transmitted_out turnIn:turn_in valueFrom:value_from waitingAfter:waiting_after
    waitingAt:waiting_at waitingFrom:waiting_from waitingIn:waiting_in waitingOf:waiting_of wantedAt:wanted_at
    wantedBy:wanted_by wantedFor:wanted_for windowAt:window_at windowFrom:window_from windowIn:window_in
    windowOf:window_of windowsOf:windows_of withAlias:with_alias withChannels:with_channels withDigit:with_digit
    withEntityOctet:with_entity_octet withFetch:with_fetch withHalf:with_half withLocal:with_local
    withOctet:with_octet withOctetAt:with_octet_at withRegister:with_register withRunning:with_running
    withService:with_service withSettings:with_settings withStore:with_store workedEntities:worked_entities
    workedRead:worked_read workedWrite:worked_write writeNext:write_next writeOf:write_of writeOne:write_one
    writeOutcome:write_outcome writeStep:write_step writeWorth:write_worth writesFrom:writes_from writesSo:writes_so
    writesTold:writes_told writingCancelled:writing_cancelled writingCompleted:writing_completed
    writingDone:writing_done writingDoneIf:writing_done_if writingExtent:writing_extent writtenAs:written_as
    """.split()
)
# Names that had landed and that the commit of the run no longer had, by the same rule: what came back of them later is spelled so.
NAMES |= dict(pair.split(":") for pair in "doneIf:done_if fedNext:fed_next fedOctet:fed_octet shownOctet:shown_octet".split())
WORD = re.compile(r"[A-Za-z_][\w'\u2032-]*")


def respelled(text):
    return WORD.sub(lambda found: NAMES.get(found.group(), found.group()), text)


def files(root):
    for folder, inner, names in os.walk(os.path.join(root, "crates")):
        inner[:] = sorted(d for d in inner if d != "out")
        yield from (os.path.join(folder, n) for n in sorted(names) if n.endswith((".rt", ".antt")))
    docs = os.path.join(root, "docs")
    yield from (os.path.join(docs, n) for n in sorted(os.listdir(docs)) if n.endswith(".md"))


def main(root):
    assert len(set(NAMES.values())) == len(NAMES), "two names fall together"
    changed = 0
    for path in files(root):
        with open(path, encoding="utf-8") as f:
            old = f.read()
        new = respelled(old)
        if new != old:
            with open(path, "w", encoding="utf-8") as f:
                f.write(new)
            changed += 1
    print(f"respell: {len(NAMES)} names, {changed} files changed")


if __name__ == "__main__":
    main(sys.argv[1] if len(sys.argv) > 1 else ".")
