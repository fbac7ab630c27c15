# Writes a C file that compiles exactly if kovshenul.h fits the library's text. Each struct of numbers has the same fields at the same
# offsets. Each export has the same parameters, and each constant has the number that the contracts give it.
#
# It reads the exports in crates/tg_exports/src, and the structs of numbers and the places in crates/tg_c/src. After them it reads Forms.antt,
# Records.antt, Laws.antt, Could.antt and View.antt of crates/tg_c/specs, then crates/tg_model/specs/Commands.antt and crates/tg_rights/specs/RightSet.antt.

function same(is, wanted) {
    printf "SAME(%s, %s);\n", is, wanted
    checks++
}

# The C type of a Rattle type, or nothing for a type that takes no bytes, or that isn't known here.
function type_of(word) {
    if (word in types) return types[word]
    if (word ~ /^&mut \[.*\]$/) return types[substr(word, 7, length(word) - 7)] " *, size_t"
    if (word ~ /^&\[.*\]$/) return "const " types[substr(word, 3, length(word) - 3)] " *, size_t"
    if (word ~ /^&mut /) return types[substr(word, 6)] " *"
    if (word ~ /^&/) return "const " types[substr(word, 2)] " *"
    if (word ~ /^\*mut /) return "void *"
    print "#error no C type for " word
    return "int"
}

# The name of a variant in capitals, with the words apart.
function capitals(name) {
    while (match(name, /[a-z][A-Z]/)) name = substr(name, 1, RSTART) "_" substr(name, RSTART + 1)
    return toupper(name)
}

# The first number that is after the words.
function number_after(words, line) {
    match(line, words)
    line = substr(line, RSTART + RLENGTH)
    sub(/[^0-9].*$/, "", line)
    return line
}

function prototype(text,    name, parts, count, i, given, list) {
    name = text
    sub(/^.*fn /, "", name)
    sub(/\(.*$/, "", name)
    sub(/^[^(]*\(/, "", text)
    sub(/\).*$/, "", text)
    count = split(text, parts, ",")
    list = ""
    for (i = 1; i <= count; i++) {
        given = parts[i]
        sub(/^[^:]*: */, "", given)
        gsub(/^ +| +$/, "", given)
        if (given != "" && given != "Global") list = list (list == "" ? "" : ", ") type_of(given)
    }
    printf "uint32_t %s(%s);\n", name, list == "" ? "void" : list
    checks++
}

BEGIN {
    print "#include \"kovshenul.h\""
    print "#define SAME(is, wanted) _Static_assert((is) == (wanted), #is)"
    types["u8"] = "char"; types["u32"] = "uint32_t"; types["u64"] = "uint64_t"; types["bool"] = "bool"
    types["EdgeIn"] = "tg_edge"; types["ValueIn"] = "tg_value"; types["LimitsIn"] = "tg_limits"
    types["DenialOut"] = "tg_denial"; types["EdgeOut"] = "tg_target"; types["CensusOut"] = "tg_counts"
    types["RecordOut"] = "tg_record"; types["HandIn"] = "tg_handing"; types["ParkingIn"] = "tg_parking"; types["LawOut"] = "tg_vertex_law"
    types["QuestionIn"] = "tg_question"
    types["StorePlace"] = "tg_store"; types["StoreHandle"] = "twin_StoreHandle"
    types["AnswerPlace"] = "tg_answer"; types["AnswerHandle"] = "twin_AnswerHandle"
    types["AuditorPlace"] = "tg_auditor"; types["AuditorHandle"] = "twin_AuditorHandle"
    types["SnapshotPlace"] = "tg_snapshot"; types["SnapshotHandle"] = "twin_SnapshotHandle"
    types["ViewPlace"] = "tg_view"; types["ViewHandle"] = "twin_ViewHandle"
    same("sizeof(void *)", 8)
    same("sizeof(bool)", 1)
    same("sizeof(size_t)", 8)
}

# ---- structs: a twin of each, with the fields in the order of the text, which repr(C) keeps

/^#\[repr\(C\)\]/ { repr = 1 }

repr && /^pub struct / {
    struct = $3
    repr = 0
    fields = 0
    printf "typedef struct {\n"
    next
}

struct && /^}/ {
    printf "} twin_%s;\n", struct
    # the header has no name for a handle. It is looked at in its place
    if (struct ~ /Place$/) same("offsetof(twin_" struct ", handle.at)", "offsetof(" types[struct] ", handle.at)")
    if (struct ~ /Handle$/) fields = 0
    else same("sizeof(twin_" struct ")", "sizeof(" types[struct] ")")
    for (i = 1; i <= fields; i++) {
        same("offsetof(twin_" struct ", " field[i] ")", "offsetof(" types[struct] ", " field[i] ")")
        same("sizeof(((twin_" struct " *)0)->" field[i] ")", "sizeof(((" types[struct] " *)0)->" field[i] ")")
    }
    struct = ""
    next
}

struct && /^ +(pub )?[a-z_]+: / && !/ghost/ && !/: Global,/ {
    line = $0
    gsub(/^ +(pub )?|,$/, "", line)
    fields++
    field[fields] = line
    sub(/:.*$/, "", field[fields])
    sub(/^[^:]*: /, "", line)
    printf "    %s %s;\n", type_of(line), field[fields]
}

# ---- exports

/^pub extern "C" fn / { text = ""; open = 1 }

open {
    text = text " " $0
    if (/-> u32/) {
        prototype(text)
        open = 0
    }
}

# ---- constants

# of the rights, whose sum is on the lines up to an empty one
/^bits_of s =/ {
    count = split("r READ w WRITE t TAKE g GRANT a APPEND l INSPECT u FREE_U v FREE_V", words, " ")
    for (i = 1; i < count; i += 2) right[words[i]] = words[i + 1]
    sum = 1
}

sum && /^$/ { sum = 0 }

sum {
    line = $0
    while (match(line, /bit_if s\.[a-z] [0-9]+/)) {
        split(substr(line, RSTART, RLENGTH), words, " ")
        letter = substr(words[2], 3)
        if (letter in right) same("TG_" right[letter], words[3])
        else print "#error no name for the right " letter
        line = substr(line, RSTART + RLENGTH)
    }
}

/law == [0-9]/ {
    number = $0
    sub(/^.*law == /, "", number)
    sub(/[^0-9].*$/, "", number)
    name = $0
    sub(/^.*law = law\./, "", name)
    sub(/[^A-Za-z].*$/, "", name)
    same("TG_" toupper(name), number)
}

/^kind_at number = / {
    line = $0
    while (match(line, /number == [0-9]+ then Some [A-Za-z]+/)) {
        split(substr(line, RSTART, RLENGTH), words, " ")
        same("TG_" toupper(words[6]), words[3])
        line = substr(line, RSTART + RLENGTH)
    }
}

# of an entry's deed that is a command, and of a rule, which has the number of its command
/^verb_number verb\.[A-Z]/ {
    name = $2
    sub(/^verb\./, "", name)
    verb[name] = $4
    same("TG_DEED_" capitals(name), $4)
}

/^verb_of rule\.[A-Z]/ {
    name = $2
    sub(/^rule\./, "", name)
    sub(/^verb\./, "", $4)
    same("TG_RULE_" capitals(name), verb[$4])
}

# of the causes, each by its own name in capitals
/^denial_at rule / {
    number = $0
    sub(/^.*cause = /, "", number)
    sub(/;.*$/, "", number)
    name = $3
    sub(/^\(/, "", name)
    same("TG_" capitals(name), number)
}

# of an entry's deed that makes a vertex
/^deed_out \((Create|Spawn) / {
    name = $2
    sub(/^\(/, "", name)
    same("TG_DEED_" capitals(name), number_after("= making_out ", $0))
}

/^reply_out \(?[A-Z][A-Za-z]* .*= / {
    name = $2
    sub(/^\(/, "", name)
    same("TG_REPLY_" capitals(name), number_after("(= answered |kind = )", $0))
}

# of an answer's kind and of a view's answer, each by its own name in capitals
/^(outlook_kind|kind_in|kind_seen) \(?[A-Z]/ {
    name = $2
    sub(/^\(/, "", name)
    if (name == "Could") {
        same("TG_NOW", number_after("then ", $0))
        same("TG_COULD", number_after("else ", $0))
    } else if (name != "Of") same("TG_" capitals(name), number_after("= ", $0))
}

/^law_out \(?law\.[A-Z]/ {
    name = $2
    sub(/^\(?law\./, "", name)
    same("TG_" capitals(name), number_after("= \\(", $0))
}

# of what is reported in the place of a law
/^law_told None = / { same("TG_NO_LAW", number_after("law = ", $0)) }

END {
    # as many as there are, so that a text that is written in another way isn't passed over
    if (checks != wanted) print "#error " checks " facts were read, and not " wanted
}
