# Prints a listing of just under 16 MiB, which is the most that `ccbox exec` reads: functions of 40 turns of a loop each, one
# behind the other, and a `main` that returns at once (`-v bytes=N` for fewer than N bytes). With `-v wat=1` it prints a module
# of WebAssembly text that has an instruction for each of the listing's.
function pair(instruction, wasm) {
    ours = ours instruction "\n"
    theirs = theirs wasm "\n"
}

BEGIN {
    if (bytes == "") bytes = 16777216
    pair("tick", "nop")
    pair("local 1", "local.get 1")
    pair("const 1000", "i32.const 1000")
    pair("lt", "i32.lt_s")
    pair("jzero 1000", "br_if 0")
    pair("local 0", "local.get 0")
    pair("nonnull @LINE:10", "i32.eqz")
    pair("set 2", "local.set 2")
    pair("local 2", "local.get 2")
    pair("local 1", "local.get 1")
    pair("local 2", "local.get 2")
    pair("const 0", "i32.const 0")
    pair("const 1000", "i32.const 1000")
    pair("in 0 0 4 @LINE:10", "call 0")
    pair("local 2", "local.get 2")
    pair("local 1", "local.get 1")
    pair("index 4", "i32.add")
    pair("local 1", "local.get 1")
    pair("local 1", "local.get 1")
    pair("mul @LINE:18", "i32.mul")
    pair("st4", "i32.store")
    pair("local 1", "local.get 1")
    pair("const 1", "i32.const 1")
    pair("add @LINE:27", "i32.add")
    pair("set 1", "local.set 1")
    head = "ccbox listing 1\ntrusted\nfun 0 main args 0 slots 0 stack 1 result int\nconst 0\nret\nend\n"
    tail = "main 0\nsandbox\nclose\n"
    left = bytes - 1 - length(head tail)

    if (wat) print "(module (memory 1) (func (param i32 i32 i32 i32 i32)) (func (result i32) i32.const 0 return)"
    else printf "%s", head
    for (k = 1; ; k++) {
        begin = "fun " k " f" k " args 0 slots 3 stack 5 result void\n"
        turn = ours
        gsub("LINE", 10000 + k, turn)
        left -= length(begin) + 40 * length(turn) + length("retv\nend\n")
        if (left < 0) break
        printf "%s", wat ? "(func (local i32 i32 i32)\n" : begin
        for (n = 0; n < 40; n++) printf "%s", wat ? theirs : turn
        printf "%s", wat ? "return)\n" : "retv\nend\n"
    }
    printf "%s", wat ? ")\n" : tail
}
