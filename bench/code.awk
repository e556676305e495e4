# Prints the graph of a program's functions, in the form that bench/stack describes, from the machine code that
# `objdump -d --no-show-raw-insn` lists, for x86-64 and aarch64. A function's key is its address.
# A frame is as deep as the stack pointer gets: the code after a return goes on where the frame was before it was given back.
# A jump through a register is taken for one of a table; what is called through the loader's table is the C library's.

# Gives the number that an operand is, with or without its mark, its sign and its base; one of 16 digits is below zero.
function number(text,   sign, digits, i, value) {
    gsub(/[#$]/, "", text)
    sign = sub(/^-/, "", text) ? -1 : 1
    if (text !~ /^0x/) return sign * text
    digits = substr(text, 3)
    if (length(digits) == 16 && digits ~ /^ffffffff/) return number("0x" substr(digits, 9)) - 4294967296
    for (i = 1; i <= length(digits); i++) value = value * 16 + index("0123456789abcdef", substr(digits, i, 1)) - 1
    return sign * value
}

# Gives the address at the end of a text where a function starts there, and else nothing.
function start_in(text) {
    if (!match(text, /[0-9a-f]+ <[^+>]+>$/)) return ""
    text = substr(text, RSTART)
    sub(/ <.*$/, "", text)
    return text
}

# Gives the name at the end of a text, with what is added to it.
function name_in(text) {
    if (!match(text, /<[^>]+>$/)) return ""
    return substr(text, RSTART + 1, RLENGTH - 2)
}

# Starts a function.
function begin(address, label) {
    key = address
    sub(/^0+/, "", key)
    name = label
    depth = deepest = rising = 0
    split("", held)
}

# Ends a function.
function finish() {
    if (key != "") print "frame", key, deepest, name
}

# Moves the stack pointer down by so many bytes, or up where they are below zero.
function move(bytes) {
    if (bytes < 0 && !rising) body = depth
    rising = bytes < 0
    moved = 1
    depth += bytes
    if (depth > deepest) deepest = depth
}

# Goes on after a return with the frame as it was before it was given back.
function leave() {
    if (rising) depth = body
}

# Says that the stack pointer goes where it can't be followed: by a register, to an alignment, or in a loop up to a limit.
function lose() {
    print "odd", key, "has a frame that is not of a fixed size"
}

# Moves the stack pointer as an instruction of x86-64 does; from the frame pointer it is set to give the frame back alone.
function move_x86() {
    if (word ~ /^pushq?$/) move(8)
    else if (word ~ /^popq?$/) move(-8)
    else if (word ~ /^subq?$/ && rest ~ /^\$[^%]*%rsp$/) move(number(first))
    else if (word ~ /^addq?$/ && rest ~ /^\$[^%]*%rsp$/) move(-number(first))
    else if (word ~ /^leaq?$/ && rest ~ /^[^%]*\(%rsp\), ?%rsp$/) { sub(/\(.*/, "", first); move(-number(first)) }
    else if (word ~ /^(mov|lea)q?$/ && rest ~ /%rbp\)?, ?%rsp$/) return
    else if (rest ~ /, ?%rsp$/ || word ~ /^cmpq?$/ && rest ~ /^%rsp,/) lose()
}

# Moves the stack pointer as an instruction of aarch64 does; from the frame pointer it is set to give the frame back alone.
function move_aarch64(   count, words, bytes) {
    count = split(rest, words, /, */)
    if (word ~ /^(add|sub)$/ && rest ~ /^sp, sp, #/) {
        bytes = number(words[3]) * (rest ~ /lsl #12$/ ? 4096 : 1)
        move(word == "sub" ? bytes : -bytes)
    } else if (rest ~ /\[sp, #-?[0-9]+\]!$/ || rest ~ /\[sp\], #-?[0-9]+$/) {
        sub(/\]!$/, "", words[count])
        move(-number(words[count]))
    } else if (word ~ /^(mov|add|sub)$/ && rest ~ /^sp, x29/) return
    else if (rest ~ /^sp,/ || word == "cmp" && rest ~ /, sp$/) lose()
}

# Remembers the function whose address an instruction of x86-64 puts into a register, to be called through it more than once.
function hold(   register) {
    if (!match(rest, /, ?%r[a-z0-9]+$/)) return
    register = substr(rest, RSTART)
    sub(/^, ?/, "", register)
    delete held[register]
    if (rest !~ /^[^%]*\(%rip\),/) return
    if (word ~ /^movq?$/) held[register] = LIBRARY
    else if (word ~ /^leaq?$/ && start_in(note) != "") held[register] = start_in(note)
}

# Prints what a function calls.
function put_call(   to) {
    to = start_in(rest)
    if (name_in(rest) ~ /@plt$/ || rest ~ /^\*[^%]*\(%rip\)$/) to = LIBRARY
    else if (substr(rest, 2) in held) to = held[substr(rest, 2)]
    if (to == LIBRARY) print "leaf", key
    else if (to == "") print "odd", key, "calls through a pointer"
    else print "call", key, to
}

# Prints where a function goes over to, if a jump leads out of it.
function put_jump(   to, into) {
    to = into = name_in(rest)
    sub(/\+.*$/, "", into)
    if (into == name || into == "" && rest !~ /\(%rip\)$/) return
    if (to == "" || to ~ /@plt$/) print "returns", key
    else if (to != into) print "odd", key, "jumps into the middle of " into
    else print "jump", key, start_in(rest)
    if (word ~ /^(b|jmpq?)$/) leave()
}

BEGIN {
    OFS = "\t"
    LIBRARY = "library"
}

/^[0-9a-f]+ <.*>:$/ {
    finish()
    begin($1, substr($2, 2, length($2) - 3))
}

/^ *[0-9a-f]+:/ {
    note = ""
    if (match($0, /[ \t]+(#|\/\/) .*$/)) {
        note = substr($0, RSTART)
        $0 = substr($0, 1, RSTART - 1)
    }
    sub(/^ *[0-9a-f]+:[ \t]*/, "")
    while (sub(/^(addr32|bnd|notrack|repz?|data16|cs)[ \t]+/, "")) continue
    word = rest = $0
    sub(/[ \t].*$/, "", word)
    sub(/^[^ \t]*[ \t]*/, "", rest)
    first = rest
    sub(/,.*$/, "", first)

    moved = 0
    if (rest ~ /%rsp/ || word ~ /^(push|pop)q?$/) move_x86()
    else if (rest ~ /(^|[ \[])sp([],]|$)/) move_aarch64()
    hold()
    if (word ~ /^retq?$/) {
        print "returns", key
        leave()
    }
    else if (word ~ /^(bl|blr|callq?)$/) put_call()
    else if (word ~ /^(b|b\..*|cbn?z|tbn?z|j[a-z]+)$/) put_jump()
    if (!moved) rising = 0
}

END { finish() }
