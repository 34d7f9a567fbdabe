# awk -f tools/retarget.awk HEADER MODULE > RETARGETED: a module that rt made for x86-64, as text, without what is of
# x86-64 alone, so that it can be compiled for another machine.
#
# What is rewritten, and how often it must be there:
#   - The line of the layout and that of the triple go: one each.
#   - The processor's name goes: once at least, and nowhere is there another word of x86 then.
#   - A struct of more than two words is handed back in memory. For x86-64 the module takes its place as the first
#     argument and returns that; elsewhere the place goes another way. So such a function takes an sret and returns
#     nothing. These are the functions that HEADER declares to return a type over 16 bytes, which its TJ_SIZED lines
#     tell; no other may look so. Each of them returns at least once, and always its first argument, and the module
#     calls none of them.
#   - The exports that are defined are the functions that HEADER declares.
# Where it is otherwise, each thing is said, and the exit status is 1.

function wrong(what) {
    print what > "/dev/stderr"
    failed = 1
}

# The function that a line names first.
function named(line) {
    sub(/^[^@]*@/, "", line)
    sub(/\(.*/, "", line)
    return line
}

FNR == NR && /^TJ_SIZED\(/ {
    split($0, part, /[(), ;]+/)
    size[part[2]] = part[3]
}
FNR == NR && /^[a-z_0-9]+ tj_[a-z_0-9]+\(/ {
    split($0, part, /[ (]/)
    if (!(part[1] in size))
        wrong("the header does not tell the size of " part[1])
    declared[part[2]] = 1
    if (size[part[1]] > 16)
        big[part[2]] = 1
}
FNR == NR { next }

/^target datalayout = / {
    layouts++
    next
}
/^target triple = / {
    triples++
    next
}
{ processors += gsub(/ "target-cpu"="x86-64-v2"/, "") }

/^define / && / @tj_/ {
    at = named($0)
    if (!(at in declared))
        wrong(at " is defined, and the header does not declare it")
    defined[at] = 1
    inside = sub(/^define noundef ptr @tj_[a-z_0-9]+\(ptr noundef %a0,/, \
        "define void @" at "(ptr noundef sret(i8) %a0,")
    if (inside != (at in big))
        wrong(at (inside ? " returns a place, and is of at most 16 bytes" : " returns no place, and is over 16 bytes"))
}
inside && /^ *ret / {
    if (!sub(/^  ret ptr %a0$/, "  ret void"))
        wrong(at " returns something else: " $0)
    returns[at]++
}
/^}/ { inside = 0 }
/ (call|invoke) .*@tj_/ && named($0) in big { wrong("a call of " named($0)) }
/[xX]86/ { wrong("a word of x86 is left: " $0) }
{ print }

END {
    if (layouts != 1 || triples != 1)
        wrong(layouts + 0 " lines of a layout and " triples + 0 " of a triple, and not one each")
    if (!processors)
        wrong("no processor is named")
    for (each in declared)
        if (!(each in defined))
            wrong(each " is declared, and the module does not define it")
    for (each in big)
        if (!returns[each])
            wrong(each " never returns")
    exit failed + 0
}
