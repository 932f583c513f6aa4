# Words, one to a line as kind:payload, printed as records: the word, and indented by depth what it is. NAMES is a file with the spelling of some
# symbols and names ('s0 knob', 'n5 sweep'), REPORT the words of a symbol report; either may be missing.
function symbol(p) {
    if (("s" p) in spelling) return spelling["s" p]
    if (p in fresh) return "symbol " p " (" fresh[p] ")"
    return "symbol " p
}
function name(p) { return ("n" p) in spelling ? "'" spelling["n" p] "'" : "name " p }
function flag(p, bit, text) { return int(p / bit) % 2 ? " " text : "" }
function children(k, p) {
    if (k == 1 || k == 17 || k == 37) return 1 + p
    if (k == 2 || k == 4 || k == 5 || k == 18 || k == 19 || k == 20 || k == 23 || k == 24) return 1
    if (k == 3 || k == 16 || k == 22 || k == 28 || k == 29 || k == 33 || k == 36 || k == 39) return p
    if (k == 21 || k == 32) return 2
    if (k == 25) return p % 256
    if (k == 26) return 2 + p % 2 + int(p / 4) % 2
    if (k == 30) return 3 + int(p / 4) % 2
    if (k == 31) return 2 + int(p / 2) % 2
    return 0
}
function meaning(k, p) {
    if (k == 1) return "module"
    if (k == 2) return "expression statement"
    if (k == 3) return "block"
    if (k == 4) return "class statement" (p == 1 ? " export" : p == 2 ? " export default" : "")
    if (k == 5) return "let " symbol(p)
    if (k == 6) return "export " symbol(p)
    if (k == 7) return "export default " symbol(p)
    if (k == 8) return "atom " p
    if (k == 9) return symbol(p)
    if (k == 10) return "string " name(p)
    if (k == 11) return "number " p
    if (k == 12) return "template " name(p)
    if (k == 13) return "null"
    if (k == 14) return "void 0"
    if (k == 15) return "this"
    if (k == 16) return "array"
    if (k == 17) return "call"
    if (k == 18) return "assignment to " symbol(p)
    if (k == 19) return "private-in " name(p)
    if (k == 20) return "class expression"
    if (k == 21) return "function"
    if (k == 22) return "decorate call"
    if (k == 23) return "parameter call, parameter " p
    if (k == 24) return "prototype of"
    if (k == 25) return "other, form " int(p / 256)
    if (k == 26) return "class" flag(p, 2, "declare")
    if (k == 27) return "id " symbol(p)
    if (k == 28) return p ? "decorators" : "no decorators"
    if (k == 29) return "body"
    if (k == 30) return (int(p / 2) % 2 ? "constructor" : "method") flag(p, 1, "static")
    if (k == 31) return "property" flag(p, 1, "static")
    if (k == 32) return "abstract accessor" flag(p, 1, "static")
    if (k == 33) return "static block"
    if (k == 34) return "key " name(p)
    if (k == 35) return "private key " name(p)
    if (k == 36) return "parameters"
    if (k == 37) return "parameter"
    if (k == 39) return "code"
    if (k == 40) return "symbols: " p
    return "?"
}
BEGIN {
    split("default key inner alias", sorts, " ")
    while (NAMES != "" && (getline line < NAMES) > 0) {
        split(line, part, " ")
        spelling[part[1]] = part[2]
    }
    n = split(REPORT, words, " ")
    for (i = 1; i <= n; i++) {
        split(words[i], part, ":")
        fresh[part[2] + 0] = sorts[part[1]]
    }
}
{
    split($1, part, ":")
    k = part[1] + 0
    p = part[2] + 0
    line = sprintf("%-12s", $1)
    for (i = 0; i < depth; i++) line = line "  "
    print line meaning(k, p)
    depth += 1
    left[depth] = children(k, p)
    while (depth > 0 && left[depth] == 0) {
        depth -= 1
        left[depth] -= 1
    }
}
