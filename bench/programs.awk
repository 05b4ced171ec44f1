# Writes a seeded program of at most `size` bytes; with c = 1 a like one in C; with sections = 1 as sections of programs
# of some 4 KiB, and a rule before each.
function random(below) {            # Lehmer, exact in a double
  state = (state * 48271) % 2147483647
  return state % below
}
function place(depth,    first, second) {
  if (depth == 0 || random(3) > 0) return "v" random(100)
  first = expr(depth - 1)
  if (random(2) == 0) return "a[" first "]"
  second = expr(depth - 1)
  return "b[" first (c ? "][" : ", ") second "]"
}
function expr(depth,    kind, left, right) {
  kind = random(8)
  if (depth == 0 || kind < 2) return random(3) == 0 ? random(1000) "" : place(depth)
  left = expr(depth - 1)
  if (kind == 2) return "(" left ")"
  right = expr(depth - 1)
  return left (kind < 5 ? " + " : kind < 7 ? " - " : " * ") right
}
function test(depth,    kind, left, right) {
  kind = random(6)
  if (depth == 0 || kind < 3) {
    left = expr(2)
    right = expr(2)
    return left (kind == 0 ? " < " : kind == 1 ? " <= " : " == ") right
  }
  left = test(depth - 1)
  if (kind == 3) return c ? "!(" left ")" : "not [" left "]"
  right = test(depth - 1)
  if (kind == 4) return left (c ? " && " : " and ") right
  return left (c ? " || " : " or ") right
}
function block(depth, margin,    count, text) {
  text = "{\n"
  for (count = random(4); count > 0; count--) text = text statement(depth - 1, margin "  ")
  return text margin "}"
}
function statement(depth, margin,    kind, left, right, head) {
  kind = random(8)
  if (depth == 0 || kind < 5) {
    left = place(2)
    right = expr(4)
    return margin left (c ? " = " : " := ") right ";\n"
  }
  head = test(2)
  if (c) head = "(" head ")"
  left = block(depth, margin)
  if (kind == 7) return margin "while " head " " left "\n"
  right = block(depth, margin)
  return margin "if " head " " left " else " right "\n"
}
function open_section(    head, rule) {
  head = (number ? "end\n" : "")
  number++
  rule = "rule r" number "\nname X; expr E; test B; stmt S;\ngiven keeps S X; given ignores E X;\n"
  rule = rule "left { while B { X:=E+1; S; } }\nright { if B { X:=(E+1); while B { S; } } else { } }\nend\n"
  head = head rule "program p" number "\n"
  printf "%s", head
  size -= length(head)
  room = 4096
}
BEGIN {
  state = 2026
  if (c) print "void program(void) {"
  for (text = statement(3, ""); length(text) <= size; text = statement(3, "")) {
    if (sections && room < length(text)) open_section()
    printf "%s", text
    size -= length(text)
    room -= length(text)
  }
  if (number) print "end"
  if (c) print "}"
}
