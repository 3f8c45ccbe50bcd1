# Makes of what wasm2c writes the C that c/wasm/runtime.h has the rest of: the module's functions, its data and its table,
# without wasm2c's own runtime. The file is read twice: awk -f translate.awk FILE FILE.
#
# It also finds out how much of the module's own stack each call needs. A function takes a fixed number of bytes from it,
# so without recursion a call's need is the largest sum along its calls. A function that can call itself again looks first
# whether the stack has room up to the next such function (ROOM). So no call goes below the stack, however deep it gets.
#
# MOST_NEEDED is the most of all calls, but for those whose names match the variable `texts`, which have a number of their own.
# Of the module's calls those in the variable `without` are left out, and what they alone need.
#
# A form that isn't known is refused: a message on standard error, and status 1.

function refuse(what) {
    print "it has " what > "/dev/stderr"
    refused = 1
    exit 1
}

# A name as it is printed: a call of the module's keeps its name, with wasm_ before it; the other functions are fn0, fn1 ..
function named(text) {
    gsub(/w2c_kbd48_/, "wasm_kbd48_", text)
    gsub(/w2c_page_/, "wasm_page_", text)
    gsub(/w2c_f/, "fn", text)
    gsub(/w2c_/, "", text)
    return text
}

function is_function(line) {
    return line ~ /^static (u32|u64|f64|void) w2c_[a-z0-9_]+\(Z_[a-z0-9_]+_instance_t\* instance[,)]/
}

function name_of(line) {
    sub(/^static [a-z0-9]+ /, "", line)
    sub(/\(.*/, "", line)
    return line
}

function number_in(line) {
    gsub(/[^0-9]+/, " ", line)
    split(line, numbers, " ")
    return numbers[1] + 0
}

# Whether a number in the line is an address of the module's data.
function has_address(line,    number) {
    while (match(line, /[0-9]+u/)) {
        number = substr(line, RSTART, RLENGTH - 1)
        if (length(number) < 10 && number + 0 >= top && number + 0 < end_of_memory) return 1
        line = substr(line, RSTART + RLENGTH)
    }
    return 0
}

function calls_in(line,    to) {
    while (match(line, /w2c_[a-z0-9_]+\(instance/)) {
        to = substr(line, RSTART, RLENGTH)
        sub(/\(.*/, "", to)
        if (!((current, to) in calls)) {
            calls[current, to] = 1
            callees[current] = callees[current] " " to
        }
        line = substr(line, RSTART + RLENGTH)
    }
}

# The stack pointer is read once in a function, and moved by a number; each later write of it moves it back. A function
# that calls nothing may leave it, and use the bytes below it: of these LLVM gives it 128.
function stack_in(line) {
    if (line ~ /= instance->w2c_g0;$/) {
        if (reads[current]++) refuse("a function that reads the stack pointer twice")
        moves = 1
    } else if (moves == 1 && line ~ /^ *w2c_l[0-9]+ = w2c_j[0-9]+;$/) {
        frame[current] = BELOW
        moves = 0
    } else if (moves == 1) {
        if (line !~ /^ *w2c_j[0-9]+ = [0-9]+ull;$/) refuse("a stack pointer that isn't moved by a number")
        sub(/^.*= /, "", line)
        frame[current] = line + 0
        moves = 2
    } else if (moves == 2) {
        if (line !~ /^ *w2c_j[0-9]+ -= w2c_j[0-9]+;$/) refuse("a stack pointer that is moved another way")
        moves = 0
    } else if (line ~ /instance->w2c_g0 = /) {
        if (writes[current]++ && !(before[1] ~ /\+= / && before[2] ~ (" = " frame[current] "ull;$")))
            refuse("a stack pointer that isn't put back")
    }
    before[2] = before[1]
    before[1] = line
}

# The functions that can be reached from one, without it unless it can be reached again.
function reach(from, seen,    list, count, i) {
    count = split(callees[from] (indirect[from] ? entries : ""), list, " ")
    for (i = 1; i <= count; i++)
        if (!(list[i] in seen)) {
            seen[list[i]] = 1
            reach(list[i], seen)
        }
}

# The bytes of stack that a call of it needs, up to the next function that looks for room itself.
function need(f,    list, count, i, most, more) {
    if (f in needed) return needed[f]
    needed[f] = 0
    count = split(callees[f] (indirect[f] ? entries : ""), list, " ")
    for (i = 1; i <= count; i++) {
        more = guarded[list[i]] ? 0 : need(list[i])
        if (more > most) most = more
    }
    needed[f] = frame[f] + most
    return needed[f]
}

function work_out(    i, f, other, seen) {
    for (i = 1; i <= functions; i++) {
        f = order[i]
        split("", seen)
        if (f ~ /w2c_(kbd48|page)_/ && index(" " without " ", " " substr(f, 5) " ") == 0) {
            kept[f] = 1
            reach(f, kept)
        }
        reach(f, seen)
        for (other in seen) {
            if (!(other in known)) refuse("a call of " other ", which isn't there")
            reaches[f, other] = 1
            if (touches[other]) touches_data[f] = 1
        }
        if (touches[f]) touches_data[f] = 1
    }
    # In a circle of calls that takes stack, each function looks for room.
    for (i = 1; i <= functions; i++) {
        f = order[i]
        if (!((f, f) in reaches)) continue
        for (other in known)
            if (((f, other) in reaches) && ((other, f) in reaches) && frame[other]) guarded[f] = 1
    }
    for (i = 1; i <= functions; i++) need(order[i])
}

BEGIN { BELOW = 128 }

NR == FNR {
    if ($0 ~ /^  func_types\[[0-9]+\] = wasm_rt_register_func_type/) {
        type = $0
        sub(/^[^=]*= /, "", type)
        if (type in types) refuse("one type of a function under two numbers")
        types[type] = 1
    } else if ($0 ~ /instance->w2c_g[0-9]+ = [0-9]+ull;$/ && !current) {
        if (top || $0 !~ /w2c_g0 /) refuse("a global that isn't the stack pointer")
        top = $0
        sub(/^.*= /, "", top)
        top += 0
    } else if ($0 ~ /^  wasm_rt_allocate_memory\(&instance->w2c_memory, [0-9]+, 65536\);$/) {
        line = $0
        sub(/^.*memory, /, "", line)
        pages = line + 0
        end_of_memory = 65536 * pages
    } else if ($0 ~ /wasm_rt_allocate_funcref_table/) {
        line = $0
        sub(/^.*T0, /, "", line)
        table_size = line + 0
    } else if ($0 ~ /^  funcref_table_init\(/) {
        if ($0 !~ (", " entry_count ", 1u, 0, " entry_count ", instance, func_types\\);$")) refuse("a table that begins elsewhere")
    } else if ($0 ~ /\(wasm_rt_function_ptr_t\)&w2c_f[0-9]+, 0\},$/) {
        line = $0
        gsub(/[{}(),&]/, " ", line)
        split(line, entry, " ")
        entry_type[++entry_count] = entry[1]
        entry_name[entry_count] = entry[3]
        entries = entries " " entry[3]
    } else if (is_function($0)) {
        current = name_of($0)
        known[current] = 1
        order[++functions] = current
        moves = 0
    } else if (/^}/) {
        current = ""
    } else if (current) {
        if (/CALL_INDIRECT\(/) indirect[current] = 1
        if (has_address($0)) touches[current] = 1
        calls_in($0)
        stack_in($0)
    }
    next
}

FNR == 1 {
    if (!top || !pages || !functions) refuse("no stack pointer, no memory or no function")
    work_out()
    print "enum { STACK_TOP = " top ", FIRST_PAGES = " pages " };"
    for (i = 1; i <= functions; i++) {
        f = order[i]
        if (f !~ /w2c_kbd48_/ || !(f in kept)) continue
        print "enum { NEED_" substr(f, 5) " = " needed[f] ", DATA_" substr(f, 5) " = " (touches_data[f] + 0) " };"
        kind = f ~ texts
        if (needed[f] > most_needed[kind]) most_needed[kind] = needed[f]
    }
    for (f in guarded) if (guarded[f] && needed[f] > most_needed[1]) most_needed[1] = needed[f]
    print "enum { MOST_NEEDED = " most_needed[0] ", MOST_NEEDED_FOR_TEXTS = " most_needed[1] + 0 " };"
}

# The declarations, then the data, the table and the functions; all else is wasm2c's runtime, or calls it.
/^static (u32|u64|f64|void) w2c_[a-z0-9_]+\(Z_[a-z0-9_]+_instance_t\*[,)]/ {
    left_out = !(name_of($0) in kept)
    sub(/Z_[a-z0-9_]+_instance_t\*/, "machine *")
    in_declaration = 1
}
in_declaration {
    if (!left_out) print named($0)
    if (/;$/) in_declaration = 0
    next
}
/^static const u8 data_segment_data_w2c_d[0-9]+\[\] = \{$/ { in_data = 1 }
in_data {
    gsub(/ /, "")
    if (/^staticconst/) print "static const u8 " substr(named($0), 14, index(named($0), "[") - 14) "[] = {"
    else print
    if (/^};/) in_data = 0
    next
}
/^  LOAD_DATA\(instance->w2c_memory, [0-9]+u, data_segment_data_w2c_d[0-9]+, [0-9]+\);$/ {
    line = $0
    gsub(/[(),;]/, " ", line)
    split(line, part, " ")
    if (part[3] + part[5] > end_of_data) end_of_data = part[3] + part[5]
    loads[++load_count] = "    memcpy(AT(m, " part[3] "), " named(part[4]) ", " part[5] ");"
    next
}
is_function($0) {
    if (!begun) {
        begun = 1
        print "enum { END_OF_DATA = " end_of_data " };"
        print "static void load_data(const machine *m) {"
        for (i = 1; i <= load_count; i++) print loads[i]
        print "}"
        if (entry_count) {
            print "static const entry table[" table_size "] = {{0, NULL},"
            for (i = 1; i <= entry_count; i++) print "{" entry_type[i] ", (function)" named(entry_name[i]) "},"
            print "};"
        }
    }
    current = name_of($0)
    if (!(current in kept)) current = ""
    if (current == "") next
    sub(/Z_[a-z0-9_]+_instance_t\* instance/, "machine *m")
    print named($0)
    next
}
current == "" { next }
/^}/ {
    current = ""
    print
    next
}
/FUNC_EPILOGUE;/ { next }
/FUNC_PROLOGUE;/ {
    if (guarded[current]) print "ROOM(m, " needed[current] ");"
    next
}
{
    gsub(/&instance->w2c_memory/, "m")
    gsub(/\(m\)/, "m")
    gsub(/instance->w2c_memory\.pages/, "pages_of(m)")
    gsub(/instance->w2c_g0/, "m->sp")
    gsub(/instance->w2c_T0\.data\[w2c_i[0-9]+\]\.module_instance/, "m")
    gsub(/instance->w2c_T0/, "table")
    gsub(/\(\*\)\(void\*/, "(*)(machine *")
    gsub(/\(instance/, "(m")
    gsub(/^ +/, "")
    $0 = named($0)
    if (/instance|wasm_rt_/ && !/wasm_rt_grow_memory/) refuse("the line " $0)
    gsub(/wasm_rt_grow_memory/, "memory_grow")
    print
}
END { if (!refused && !begun) refuse("no function") }
