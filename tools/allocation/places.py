"""The named places, at which a text may be that the rules of refusals.py and amounts.py don't allow. Each has the text word
by word, and the reason. A text that is named and isn't there is a fault, too."""

# A file, a function in it, and words that are there.
Place = tuple[str, str, str]

# What is handed back alone, in one file.
HANDED_ALONE = {"tg_shared/src/locked.rt": ["Err", "(", "store", ")"]}

# The places at which a lack of memory may be reported. Each has the file and the function, the words under which it is
# each time, and the reason.
PLACES = {
    ("tg_journal/src/journal.rt", "reserve_many"): (
        ["if u64::MAX-self.len()<more as u64"],
        "a place has a number of 64 bits, and no journal has an entry past them",
    ),
    ("tg_journal/src/auditor.rt", "next_place"): (
        ["match self.at.checked_add Some(next) None"],
        "a place has a number of 64 bits, and no history has an entry past them",
    ),
    ("tg_index/src/number_set.rt", "lengthen"): (
        ["if words==MOST_WORDS"],
        "a place has a number of 32 bits, and no heap has a row past them",
    ),
    ("tg_race/src/world.rt", "meet"): (
        ["if!self.records[helper].fits_one(&self.records[other])"],
        "the world's records have room for 2^62 items, and no table has so many cells",
    ),
    ("tg_parallel/src/many.rt", "start"): (
        ["scope.spawn_with"],
        "the start of a thread was refused: the error hands the promise back",
    ),
    ("tg_threads/src/threads.rt", "start"): (
        ["scope.spawn_with"],
        "the start of a thread was refused: the error hands the promise back",
    ),
    ("tg_text/src/write.rt", "bytes_counted"): (
        ["match written Ok(()) Err(WriteFailed)"],
        "what was written lies in memory, and writing fails for want of it alone",
    ),
    ("tg_text/src/stream.rt", "put"): (
        ["match self.writer.write Ok(count)if count>0 _"],
        "the writer failed, or took no byte",
    ),
    ("tg_text/src/stream.rt", "take_byte"): (["reader.fill_buf"], "the reader failed"),
    ("tg_c/src/refusal.rt", "from"): (
        ["match fault ResumeFault::BadPlace ResumeFault::Unread"],
        "a store that was to go on had no memory to read the entry: this is the value's meaning",
    ),
    ("tg_shared/src/shared.rt", "new"): (
        ["match Locked::open Ok((locked, sessions, keeper)) Err(store)"],
        "there was no memory for the sessions: the store comes back alone",
    ),
    ("examples/src/tenants/story.rt", "share"): (
        ["match MeteredStore::<L, V, E, CellPayload>::new Ok(shared) Err(store)"],
        "there was no memory for the sessions: the store comes back alone",
    ),
    ("tgstore/src/program.rt", "words_of"): (
        [
            "match env::args Ok(words) Err(error)if error.kind()==io::ErrorKind::InvalidData Err(_)",
            "match words.collect Ok(words) Err(_)",
        ],
        "the words of the command line, for which the system's error says so",
    ),
    ("tgstore/src/program.rt", "tell"): (
        ["if error.kind()==ErrorKind::OutOfMemory"],
        "the error of the command line says so",
    ),
    ("tg_plain/src/text.rt", "print"): (["if self.is_short"] * 2, "a growth was refused before, and noted"),
    ("tg_plain/src/program.rt", "words_of"): (
        ["match env::args Ok(words) Err(error)if error.kind()==io::ErrorKind::InvalidData Err(_)"] * 2,
        "the words of the command line, for which the system's error says so",
    ),
    ("tgcould/src/answers.rt", "print"): (["if self.notes.is_short"] * 2, "a growth was refused before, and noted"),
    ("tgcould/src/refused.rt", "print"): (["if text.is_short"] * 2, "a growth was refused before, and noted"),
    ("tg_saved/src/line.rt", "is_line"): (
        ["match write_snapshot_line Ok(()) Err(_)"],
        "what was read is written to memory, which fails for want of it alone",
    ),
    ("tg_saved/src/text.rt", "bytes_named"): (
        ["match written Ok(()) Err(WriteFailed)"],
        "what was written lies in memory, and writing fails for want of it alone",
    ),
    ("tg_entries/src/sum.rt", "bytes_named"): (
        ["match written Ok(()) Err(WriteFailed)"],
        "what was written lies in memory, and writing fails for want of it alone",
    ),
    ("tg_kept/src/lines.rt", "add_said"): (
        ["match write_said Ok(()) Err(WriteFailed)"],
        "the line is written to memory, which fails for want of it alone",
    ),
    ("tg_kept/src/lines.rt", "end_line_named"): (
        ["match write_end Ok(()) Err(WriteFailed)"],
        "the line is written to memory, which fails for want of it alone",
    ),
    ("tg_lasting/src/part.rt", "keep_part"): (
        ["if is_cut(replied.outcome)"],
        "the replies are written to memory, which fails for want of it alone",
    ),
    ("tg_shares/src/creating.rt", "create_next"): (
        ["if client.session.make_room(draft.value().state.as_slice()).is_err()"],
        "the room of a receipt is refused for want of memory alone, as the call says",
    ),
    ("tg_kept/src/read.rt", "text_named"): (
        ["match write_end Ok(()) Err(WriteFailed)"],
        "the text is written to memory, which fails for want of it alone",
    ),
    ("tg_c/src/text.rt", "bytes_named"): (
        ["match written Ok(()) Err(WriteFailed)"],
        "what was written lies in memory, and writing fails for want of it alone",
    ),
    **{
        (f"tg_entries/src/{file}", name): (
            [f"match {writer} Ok(()) Err(_)"],
            "what was read is written to memory, which fails for want of it alone",
        )
        for file, name, writer in (
            ("part.rt", "check_part", "write_part"),
            ("part.rt", "is_reply", "write_answered"),
            ("listing.rt", "write_again", "write_listed"),
        )
    },
}

# What these words rest on: a constant, or a function of one expression, word by word.
LISTS = ("chunks", "won", "seen", "aged_blocks", "old_blocks")
PINNED = {
    ("tg_index/src/bits.rt", "MOST_WORDS"): "1<<26",
    ("tg_race/src/record.rt", "LIMIT"): "1<<62",
    ("tg_race/src/record.rt", "fits_one"): "&&".join(
        [f"{record}.{name}.len()<LIMIT" for name in LISTS for record in ("self", "other")]
        + ["self.share<LIMIT as u64", "other.share<LIMIT as u64"]
    ),
}

# A refused growth that is noted and reported later, and the other facts that may be noted beside it. It fails for lack
# of memory alone, or was noted there.
NOTED = {"is_short"}
NOTED_OTHERWISE = {
    ("tg_plain/src/text.rt", "write_reply(self, answer).is_err()"),
    ("tgdot/src/drawing.rt", "run.is_short()"),
    ("tgdot/src/shot.rt", "write_line(&mut self.heading, line.line).is_err()"),
    ("tgdot/src/steps.rt", "shot.is_short()||frame.is_short()"),
}

# The requests that aren't of the forms of amounts.py. Each has the file and the function, the words, and the reason why
# it may be.
NAMED = {
    ("tg_rows/src/indexed_row.rt", "reserve", "self.old_cells"):
        "how many of the row's cells lie in Old: no more than it has",
    ("tg_rows/src/followed.rt", "follow_row", "old"): "how many of the row's cells lie in Old now",
    ("tg_threads/src/worker.rt", "room_for", "spawn_lines(tasks)"):
        "how many of the lines may make a subject: a clause",
    ("tg_text/src/stock.rt", "gather_boxes", "count"):
        "how many boxes the text names, and each of its items: at most 100,000, a clause",
    ("tg_plain/src/run.rt", "open", "script.workers"):
        "how many workers there are: at most 64, as the words of the command line may say",
    ("tgstore/src/boxes.rt", "serve_with_boxes", "start.settings.workers"): "the same",
    ("tgstore/src/kept_streams.rt", "setup_of", "start.settings.workers"): "the same",
    ("tgdot/src/run.rt", "open", "script.workers"): "the same",
    ("tg_plain/src/text.rt", "pad", "first.saturating_add(width)"): "the longest text of a kind that is drawn",
    ("tg_could/src/witness/plan.rt", "make_names", "last.saturating_add(1)"):
        "a turn for each name up to the one that is asked about, which is 65,536 ahead at most",
    ("tg_could/src/witness/plan.rt", "make_up_to_late", "late.name.saturating_add(1)"): "the same",
    # Loops that end where there is no more.
    ("tg_could/src/search.rt", "go_back", "NONE"): "a step that was found each",
    ("tg_could/src/search.rt", "spread", "NONE"): "a step that was found each",
    ("tg_could/src/search.rt", "spread_along", "NONE"): "an edge of the vertex each",
    ("tg_could/src/view/walks.rt", "begin", "u64::MAX"): "an edge along a path each",
    ("tg_entries/src/piece.rt", "read_some", "u64::MAX"): "a piece of the line each",
    ("tg_saved/src/text.rt", "read_lines", "u64::MAX"): "a line of the text each",
    ("tg_entries/src/stream.rt", "audit_lines", "u64::MAX"): "a line of the reader each",
    ("tg_entries/src/stream.rt", "skip_line", "u64::MAX"): "a piece of the line each",
    ("tgaudit/src/kept.rt", "audit_rest", "while let Some(text)=reader.next()"): "a line of the file each",
    ("tg_kept/src/read.rt", "add_lines", "while let Some(line)=reader.next()"): "a line of the file each",
    ("tg_found/src/text.rt", "add_lines", "while let Some(line)=reader.next()"): "a line of the file each",
    ("tg_plain/src/script.rt", "add_lines", "while let Some(line)=reading.next(source,&mut sink)?"): "a line of the reader each",
    ("tg_past/src/edges.rt", "read", "while left>0"): "an entry each",
    ("tg_plain/src/input.rt", "read_front", "u64::MAX"): "a byte of the mark each",
    ("tg_evac/src/copies.rt", "scan", "while next<claimer.len()"): "a cell that was won each",
    ("tg_evac/src/walk.rt", "each", "loop"): "a root each",
    ("tg_rows/src/followed.rt", "follow_rows", "while i<rows.len()"): "an indexed row each",
    ("tg_rows/src/rows.rt", "edges_of", "loop"): "a cell of the row each",
    ("tg_rows/src/rows.rt", "places_of", "loop"): "a cell of the row each",
    ("tg_journal/src/live/sweep.rt", "reached", "while next<names.len()"): "a vertex that is reached each",
    ("tg_store/src/store/picture.rt", "edges_reached", "while next<found.vertices.len()"):
        "a vertex that is reached each",
    ("tg_store/src/store/picture.rt", "find_reached", "while next<found.vertices.len()"):
        "a vertex that is reached each",
    ("tg_shared/src/creating.rt", "create_all", "while let Some(draft)=drafts.pop()"): "a draft of the list each",
    ("tg_shares/src/creating.rt", "create_all", "while let Some(draft)=drafts.pop()"): "a draft of the list each",
    ("tg_lasting/src/chunk.rt", "next_chunk", "while chunk.len()<=MOST_LINE_BYTES"): "a piece of the reader each",
    ("tg_lasting/src/run.rt", "run_parts", "loop"): "a part of the script each",
    ("tg_graph/src/settle.rt", "add_indexed", "while let Some(number)=row.noted.next(from)"):
        "a cell that was noted each",
    ("tg_script/src/opening.rt", "read_edges", "while let Some(line)=script.next(source, sink)?"): "a line each",
    ("tg_script/src/whole.rt", "read_script", "while let Some(line)=next"): "a line each",
    ("tg_script/src/run_script.rt", "run_commands", "loop"): "a line each",
    ("tg_text/src/sink.rt", "put_all", "while!rest.is_empty()"): "a part of the bytes each",
    ("tg_text/src/stock.rt", "gather_boxes", "while!rest.is_empty()"): "an item of the text each",
}
