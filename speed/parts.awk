# Names, in the text of the proved desk's module, the part that each instruction belongs to, as the file of its debug line,
# for a profile to read: the crate of its function ("desk" for its rooms, "lines" for all leaves but their "searches"), "moves" for a move of a
# whole machine, "answers" for any smaller move, "clears" where a place is cleared. The code stays as it is.

function add(text) {
    notes = notes "!" id " = " text "\n"
    return id++
}

function file(name) {
    if (!(name in files)) files[name] = add("!DIFile(filename: \"" name "\", directory: \"parts\")")
    return files[name]
}

# A profiler may join neighbours that have one line number: each part has its own.
function place(name) {
    if (!(name in places)) {
        block = add("!DILexicalBlockFile(scope: !" within ", file: !" file(name) ", discriminator: 0)")
        places[name] = add("!DILocation(line: " file(name) ", scope: !" block ")")
    }
    return places[name]
}

function part_of(name) {
    if (name ~ /^lines::(.*::)?(find|lowest|marks)/) return "searches"
    sub(/::.*/, "", name)
    if (name ~ /^(kin|answers|verdicts|tables|calls|events|looks|starts|rules)$/) return "desk"
    if (name ~ /^(seats|choices)$/) return "lines"
    return name ~ /^(std|core)$/ ? "replay" : name
}

# an answer has 48 bytes, and a machine several hundred
BEGIN {
    large = 256
    id = 900000
    unit = add("distinct !DICompileUnit(language: DW_LANG_C, file: !" file("module") ", isOptimized: true, runtimeVersion: 0, emissionKind: LineTablesOnly)")
    type = add("!DISubroutineType(types: !{null})")
}

/^define / {
    name = $0
    sub(/^[^@]*@"?/, "", name)
    sub(/"?\(.*/, "", name)
    here = part_of(name)
    within = add("distinct !DISubprogram(name: \"" name "\", scope: !" file(here) ", file: !" file(here) ", line: 1, type: !" type ", unit: !" unit ", spFlags: DISPFlagDefinition | DISPFlagOptimized)")
    split("", places)
    sub(/ \{$/, " !dbg !" within " {")
    inside = 1
    print
    next
}

/^}/ { inside = 0 }

# a switch that goes on over more lines has its mark behind its last
inside && /^  [^ ]/ && !/\[$/ {
    part = here
    if (/@llvm\.mem(move|cpy)/) {
        bytes = $0
        sub(/.*, i64 /, "", bytes)
        part = bytes + 0 >= large ? "moves" : "answers"
    }
    if (/@llvm\.memset/) part = "clears"
    $0 = $0 ", !dbg !" place(part)
}

{ print }

END {
    print "!llvm.dbg.cu = !{!" unit "}"
    print "!llvm.module.flags = !{!" add("!{i32 2, !\"Debug Info Version\", i32 3}") ", !" add("!{i32 7, !\"Dwarf Version\", i32 4}") "}"
    printf "%s", notes
}
