"""The texts by which tools/check_allocation tries itself: each wrong one has to be found where it is, and no right
one."""

# What is put after a source.
WRONG = [
    "fn planted() -> Result<(), AllocError> { Err(AllocError) }",
    "fn planted() -> Result<(), AllocError> { let refused = AllocError; Err(refused) }",
    "const REFUSED: AllocError = AllocError;",
    "type Refused = AllocError;",
    "use std::alloc::AllocError as Refused;",
    "use tg_space::RoomFault::OutOfMemory;",
    "fn planted(value: u64) -> AllocError { AllocError::from(AllocFailed { value }) }",
    "fn planted(many: bool) -> Result<(), RoomFault> { if many { return Err(RoomFault::OutOfMemory); } Ok(()) }",
    (
        "fn planted(spaces: &mut Spaces) -> Result<(), RoomFault> { let Ok(()) = spaces.grow() else { return "
        "Err(RoomFault::OutOfMemory); }; Ok(()) }"
    ),
    "fn planted(spaces: &mut Spaces) -> Result<(), RoomFault> { spaces.grow().map_err(|_| RoomFault::OutOfMemory) }",
    (
        "fn planted(found: Result<u64, u64>) -> Result<u64, RoomFault> { match found { Ok(at) => Ok(at), Err(_) => "
        "Err(RoomFault::OutOfMemory) } }"
    ),
    (
        "fn planted(why: RoomFault) -> Refusal { match why { RoomFault::OutOfMemory | RoomFault::HeapFull => "
        "Refusal::Memory } }"
    ),
    (
        "fn planted(why: RoomFault) -> Refusal { match why { RoomFault::HeapFull => Refusal::Memory, "
        "RoomFault::OutOfMemory => Refusal::Heap } }"
    ),
    "fn planted(why: RoomFault) -> Refusal { match take::<u64, u64>(why) { RoomFault::HeapFull => Refusal::Threads } }",
    (
        "fn planted(spaces: &mut Spaces) -> Result<(), RoomFault> { let Ok(()) = spaces.add_block(0) else { return "
        "Err(RoomFault::OutOfMemory); }; Ok(()) }"
    ),
    (
        "fn planted(many: bool, list: &mut Vec<u64>) -> bool { if many || list.push(1).is_err() { return "
        "tell(RoomFault::OutOfMemory); } true }"
    ),
    "impl From<u64> for RoomFault { fn from(_number: u64) -> RoomFault { RoomFault::OutOfMemory } }",
    "impl RoomFault { fn from(_number: u64) -> RoomFault { Self::OutOfMemory } }",
    "fn planted<P: Payload>(payload: P) -> Result<Draft<P>, DraftRefused<P>> { Err(DraftRefused { payload }) }",
    "fn planted() -> HelpersFault { HelpersFault::NoThread }",
    'enum Planted { #[error("out of memory")] TooLarge }',
]
FINE = [
    (
        "fn planted(list: &mut Vec<u64>) -> Result<(), AllocError> { list.push(1)?; "
        "list.reserve(1).map_err(AllocError::from) }"
    ),
    (
        "fn planted(why: RoomFault) -> bool { let is_short = why == RoomFault::OutOfMemory; is_short || "
        "matches!(why, RoomFault::OutOfMemory) }"
    ),
    (
        "fn planted(why: RoomFault) -> Refusal { match why { RoomFault::OutOfMemory => Refusal::Memory, "
        "RoomFault::HeapFull => Refusal::Heap } }"
    ),
    "fn planted(found: Result<u64, RoomFault>) -> u64 { if let Err(RoomFault::OutOfMemory) = found { 1 } else { 0 } }",
    (
        "fn planted(alloc: Global) -> Result<Vec<u64>, RoomFault> { let Ok(list) = Vec::with_capacity(alloc, 8) else "
        "{ return Err(RoomFault::OutOfMemory); }; Ok(list) }"
    ),
    (
        "fn planted(list: &mut Vec<u64>) -> Result<(), RoomFault> { if list.push(1).is_err() { return "
        "Err(RoomFault::OutOfMemory); } Ok(()) }"
    ),
    (
        "fn planted(list: &mut Vec<u64>) -> Result<(), RoomFault> { match list.reserve(1) { Ok(()) => Ok(()), Err(_) "
        "=> Err(RoomFault::OutOfMemory) } }"
    ),
    "impl From<AllocError> for Planted { fn from(_refused: AllocError) -> Planted { Planted::OutOfMemory } }",
    (
        "// Err(AllocError)\nfn planted() -> Result<(), AllocError>\n    ensures { result ≢ Err "
        "RoomFault.OutOfMemory }\n{ Ok(()) }"
    ),
]

# Texts of sources that are changed: the file, what is there, and what is put there.
CHANGED = [
    ("tg_journal/src/journal.rt", "u64::MAX - self.len() < more as u64", "self.len() > 1 << 40"),
    (
        "tg_journal/src/journal.rt",
        "u64::MAX - self.len() < more as u64",
        "u64::MAX - self.len() < more as u64 || self.len() > 1 << 40",
    ),
    ("tg_index/src/bits.rt", "const MOST_WORDS: usize = 1 << 26", "const MOST_WORDS: usize = 1 << 20"),
    ("tg_race/src/record.rt", "self.chunks.len() < LIMIT", "self.chunks.len() < LIMIT / 2"),
    ("tg_plain/src/text.rt", "is_short: false", "is_short: text.len() > 1 << 40"),
    (
        "tg_text/src/memory.rt",
        "        self.finished = false;\n        match",
        "        if self.bytes.len() > 1 << 40 { return Put::Failed; }\n        match",
    ),
    (
        "tg_shared/src/locked.rt",
        "let start = store.journal().len();",
        "let start = store.journal().len(); if start > 1 << 40 { return Err(store); }",
    ),
    ("tg_payload/src/table.rt", "if self.payloads.reserve(1).is_err()", "if self.payloads.len() > 1 << 40"),
    (
        "tg_plain/src/text.rt",
        "self.is_short |= self.bytes.extend_from_slice(text).is_err()",
        "self.is_short |= self.bytes.len() > 1 << 40",
    ),
]

# The same of amounts: a source of its own. `list` is a list that is there, and `more` another one.
ASKS_TOO_MUCH = [
    "if list.len() > 1 << 40 { list.reserve(usize::MAX)?; }",
    "list.reserve(more.len() << 30)?;",
    "list.reserve(more.len() * more.len())?;",
    "list.reserve(list.len())?;",
    "list.reserve(1_000_000_000)?;",
    "list.resize(u32::MAX as usize, 0)?;",
    "Vec::reserve(list, usize::MAX)?;",
    "list.reserve(more.len() + (1 << 40))?;",
    "list.reserve(more.len().max(1 << 40))?;",
    "list.reserve({ let most = 1 << 40; most })?;",
    "let room = usize::MAX - list.len(); list.reserve(room)?;",
    "let room = if list.len() > 1 << 40 { usize::MAX } else { 1 }; list.reserve(room)?;",
    "let room = match list.len() { 0 => 1, _ => usize::MAX }; list.reserve(room)?;",
    "let mut room = 1; room = usize::MAX; list.reserve(room)?;",
    "let mut room = 1; for _ in 0..64 { room += room; } list.reserve(room)?;",
    "let mut room = 1; room <<= 40; list.reserve(room)?;",
    "let mut room = 1; (room, _) = (usize::MAX, 0); list.reserve(room)?;",
    "list.reserve([(); usize::MAX].len())?;",
    "let mut room = 1; most(&mut room); list.reserve(room)?;",
    "let (room, _) = (usize::MAX, 0); list.reserve(room)?;",
    "let Some(room) = Some(usize::MAX) else { return Ok(()) }; list.reserve(room)?;",
    "match Some(usize::MAX) { Some(room) => list.reserve(room)?, None => {} }",
    "(|room: usize| list.reserve(room))(usize::MAX)?;",
    "list.reserve(limits.most)?;",
    (
        "list.reserve(room_of(list))?; } fn room_of(list: &Vec<u64>) -> usize { if list.len() > 1 << 40 { usize::MAX "
        "} else { 0 }"
    ),
    "list.reserve(room_of(list))?; } fn room_of(list: &Vec<u64>) -> usize { let most = usize::MAX; most",
    (
        "widen(list, 1 << 40)?; } fn widen(list: &mut Vec<u64>, room: usize) -> Result<(), AllocError> { "
        "list.reserve(room)"
    ),
    (
        "widen(list)?; } fn widen(list: &mut Vec<u64>) -> Result<(), AllocError> { wider(list, 1 << 40) } fn "
        "wider(list: &mut Vec<u64>, room: usize) -> Result<(), AllocError> { list.reserve(room)"
    ),
    (
        "Wide::widen(list, 1 << 40)?; } impl Wide { fn widen(list: &mut Vec<u64>, room: usize) -> Result<(), "
        "AllocError> { list.reserve(room) }"
    ),
    "journal.reserve_many(1 << 40)?;",
    "grow(list, Vec::reserve)?;",
    "grow(list, widen)?; } fn widen(list: &mut Vec<u64>, room: usize) -> Result<(), AllocError> { list.reserve(room)",
    "let _ = vec![in alloc; 0; u32::MAX as usize]?;",
    "let _ = Vec::<u64>::with_capacity(alloc, MOST)?; } const MOST: usize = 1 << 40; fn nothing() {",
    "let _ = BufReader::with_capacity(alloc, 1 << 40, reader)?;",
    "let _ = Box::new(alloc, [0u8; 1 << 40])?;",
    "let _ = (0..u64::MAX).collect(alloc)?;",
    "let _ = (0..).collect(alloc)?;",
    "let all = 0..u64::MAX; let _ = all.collect(alloc)?;",
    "let _ = all().collect(alloc)?; } fn all() -> Range<u64> { 0..u64::MAX",
    'let _ = format!(in alloc; "{:>1$}", 0, usize::MAX)?;',
    'let _ = format!(in alloc; "{list:>1000000000}")?;',
    "let _ = alloc.allocate(usize::MAX, 1)?;",
    "let _ = iter::repeat(0).collect(alloc)?;",
    "for _ in 0..1 << 40 { list.push(0)?; }",
    "(0..1 << 40).try_for_each(|_| list.push(0))?;",
    "while list.len() < 1 << 40 { list.push(0)?; }",
    (
        "while list.len() < most { list.push(0)?; } } fn all(list: &mut Vec<u64>) { widen(list, usize::MAX) } fn "
        "widen(list: &mut Vec<u64>, most: usize) { while list.len() < most { list.push(0)?; }"
    ),
    "while !list.is_empty() { list.push(0)?; }",
    "while let Some(_) = list.last() { list.push(0)?; }",
    "loop { list.push(0)?; }",
    "for _ in more { for _ in more { list.push(0)?; } }",
    "for _ in more { list.extend_from_slice(more)?; }",
    (
        "for _ in more { widen(list, more)?; } } fn widen(list: &mut Vec<u64>, more: &[u64]) -> Result<(), "
        "AllocError> { for _ in more { list.push(0)?; } Ok(())"
    ),
    (
        "for _ in more { widen(list)?; } } fn widen(list: &mut Vec<u64>) -> Result<(), AllocError> { let half = "
        "list.len(); list.reserve(half)"
    ),
    "for _ in more { let _ = Graph::open(alloc, opening)?; }",
    "more.iter().try_for_each(|_| list.extend_from_slice(more))?;",
    (
        "} unsafe impl Allocator for All { fn allocate(&self, size: usize, align: usize) -> Result<*mut u8, "
        "AllocError> { Global.take(size, align) }"
    ),
    "for _ in 0..64 { let mut other = list.clone()?; list.append(&mut other)?; }",
    "loop { widen(list)?; } } fn widen(list: &mut Vec<u64>) -> Result<(), AllocError> { list.push(0)",
    "list.push(0)?; planted(list, more)?;",
    "list.reserve(all.made())?; } impl All { fn made(&self) -> u64 { self.all }",
    "} impl Iterator for All { fn next(&mut self) -> Option<u64> { Some(0) }",
]
ASKS_FOR_WHAT_IS_THERE = [
    "list.reserve(more.len() + 1)?;",
    "list.reserve(more.len().min(usize::MAX))?;",
    "list.resize(more.len() / 2, 0)?;",
    "let room = if more.len() > 3 { more.len() } else { 64 }; list.reserve(room)?;",
    "let mut room = more.len(); room -= 1; list.reserve(usize::from(room))?;",
    "let _ = Vec::<u64>::with_capacity(alloc, MOST as usize)?; } const MOST: u64 = 1 << 16; fn nothing() {",
    (
        "widen(list, more.len())?; } fn widen(list: &mut Vec<u64>, room: usize) -> Result<(), AllocError> { "
        "list.reserve(room)"
    ),
    "list.reserve(twice(more.len()))?; } fn twice(room: usize) -> usize { room + room",
    "for item in more { list.push(*item)?; }",
    "for at in 0..more.len() { list.push(at)?; }",
    "while list.len() < 64 { list.push(0)?; }",
    "while at < 1 << 40 { at += 1; }",
    "let _ = (0..more.len()).collect(alloc)?;",
    "let _ = list.get(0..usize::MAX); let Limits { most, .. } = limits; list.push(0)?;",
]
