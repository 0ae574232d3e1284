# Reads how clang's own C front end passes the calls of the header, on x86-64 (kind=x86) and on Arm (kind=arm), and then the module that the toolchain
# lowered for x86-64 (kind=module); writes the same module for Arm. Each line is as it was, or is one of these, which are counted to `counts`:
#
#   layout    the data layout, Arm's in place of x86-64's
#   triple    the target, the same
#   cpu       attributes: without the processor that they name
#   result    an export: its answer's place. x86-64 hands that pointer over first and back; Arm has a register of its own for it, which is `sret`
#   copy      an export, in the same line: a struct handed over by value. x86-64 has it on the stack (`byval`); Arm has a pointer to the caller's copy
#   return    an export's end: nothing is handed back
#
# Exits 1 where an export isn't as the header has it on x86-64, or, changed, isn't as the header has it on Arm.

function give_up(what) {
    print "arm.awk: " what > "/dev/stderr"
    bad = 1
    exit 1
}

# The bytes of the struct that a parameter's sret or byval names: [N x i8] in the module, a struct of the header in a declaration.
function bytes_in(parameter) {
    if (match(parameter, /\(\[[0-9]+ x i8\]\)/)) { return substr(parameter, RSTART + 2) + 0 }
    match(parameter, /\(%struct\.[A-Za-z]+\)/)
    return size[substr(parameter, RSTART + 9, RLENGTH - 10)]
}

# The parameters of a declaration or definition: sret or byval with its bytes, or the type.
function kinds(line,   n, k, part, all) {
    sub(/^[^(]*@[a-z_]+\(/, "", line)
    sub(/\) #[0-9]+( \{)?$/, "", line)
    n = split(line, part, /, /)
    for (k = 1; k <= n; k++) {
        if (part[k] ~ / sret\(/) { all = all " sret:" bytes_in(part[k]) }
        else if (part[k] ~ / byval\(/) { all = all " byval:" bytes_in(part[k]) }
        else { sub(/ .*/, "", part[k]); all = all " " part[k] }
    }
    return all
}

function name_in(line) {
    match(line, /@yubi_[a-z_]+\(/)
    return substr(line, RSTART + 1, RLENGTH - 2)
}

kind != "module" && /^@size_of_[A-Za-z]+ = .*constant i64 [0-9]+,/ {
    name = substr($1, length("@size_of_") + 1)
    sub(/.* i64 /, "")
    if (name in size && size[name] != $0 + 0) { give_up(name " has another size on Arm") }
    size[name] = $0 + 0
}
kind != "module" && /^declare void @yubi_/ {
    name = name_in($0)
    header[kind, name] = kinds($0)
    if (kind == "arm") {
        if (!match($0, /\(ptr [a-z_ ]*sret\(%struct\.[A-Za-z]+\)/)) { give_up("the header's " name " answers in registers on Arm") }
        answer[name] = bytes_in(substr($0, RSTART + 1, RLENGTH))
        declared++
    }
}
kind == "arm" && /^target / { arm[$2] = $0 }
kind != "module" { next }

/^target datalayout/ { $0 = arm["datalayout"]; changed["layout"]++ }
/^target triple/ { $0 = arm["triple"]; changed["triple"]++ }
/^attributes / && / "target-cpu"="x86-64-v2"/ { sub(/ "target-cpu"="x86-64-v2"/, ""); changed["cpu"]++ }
/^define / && !/^define internal / {
    name = name_in($0)
    if (!(("arm", name) in header)) { give_up("the header has no call " name) }
    if ($0 !~ /^define noundef ptr @yubi_[a-z_]+\(ptr noundef %a0/) { give_up(name " doesn't hand back the place of its answer") }
    sub(/^define noundef ptr/, "define void")
    sub(/\(ptr noundef %a0/, "(ptr noundef sret([" answer[name] " x i8]) align 8 %a0")
    if (kinds($0) != header["x86", name]) { give_up(name " takes" kinds($0) ", and the header on x86-64" header["x86", name]) }
    if (sub(/ byval\(\[[0-9]+ x i8\]\) align 8/, "")) { changed["copy"]++ }
    if (kinds($0) != header["arm", name]) { give_up(name " takes" kinds($0) ", and the header on Arm" header["arm", name]) }
    changed["result"]++
    export = 1
}
export && /^  ret / {
    if ($0 != "  ret ptr %a0") { give_up(name " ends with" $0) }
    $0 = "  ret void"
    changed["return"]++
}
/^}/ { export = 0 }
{ print }

END {
    if (bad) { exit 1 }
    if (changed["result"] != declared) { give_up("the header has " declared " calls, the module " changed["result"]) }
    n = split("layout triple cpu result copy return", order)
    for (k = 1; k <= n; k++) { printf "%s %d\n", order[k], changed[order[k]] > counts }
}
